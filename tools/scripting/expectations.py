"""Expectations: what a script says of the cluster at one of its lines. read(words) makes one of a line's words.

A condition tells what came in its place, or None where it holds. docs/SCRIPT.md has a table of all.
"""

import re

import report as reports
from scripting import names
from scripting.words import Fault, either, is_place, shown, spelled, unknown

STATES = ["complete", "admitted"]
WAYS = ["own", "cache", "disk"]


class Condition:
    """Words, and what they ask of a world: tell(world) is None where it is so, and else what is so in its place."""

    def __init__(self, tell, is_of_end=False):
        self.tell, self.is_of_end, self.text = tell, is_of_end, ""


def read(words):
    """One expectation, to the end of the words."""
    begin = words.at
    condition = read_form(words)
    words.end()
    condition.text = " ".join(spelled(it) for it in words.words[begin:]).replace(" ,", ",").replace(" :", ":")
    return condition


def read_form(words):
    """The form is told by its first words."""
    word = words.peek()
    if word is None:
        raise Fault(f"the line ends where an expectation is to stand: {either(FORMS)}")
    if is_place(word) and word[0] in "cn":
        return read_client(words) if word[0] == "c" else read_node(words)
    if isinstance(word, str) and word.startswith("/"):
        return read_set(words)
    if word in FORMS:
        return FORMS[word](words)
    return read_on_the_way(words)


def instead(is_so, came):
    return None if is_so else came


# ---- clients

def read_client(words):
    client = words.client()
    form = words.want("accepted", "served", "is", "waits", "aborted", "ended", "was")
    return {
        "accepted": read_accepted, "served": read_served, "is": read_state,
        "waits": lambda _, it: in_state(it, "waiting", "does not wait in the line"),
        "aborted": lambda _, it: in_state(it, "aborted", "did not reset its connection"),
        "ended": lambda _, it: in_state(it, "ended", "did not take the end of its stream"),
        "was": read_reset,
    }[form](words, client)


def opened(client, tell):
    """A condition on a client that has opened."""
    return Condition(lambda world: tell(world) if world.is_open(client) else f"c{client} has not opened")


def in_state(client, state, otherwise):
    return opened(client, lambda world: instead(state in world.states[client], f"c{client} {otherwise}"))


def read_reset(words, client):
    words.want("reset")
    return in_state(client, "reset", "was not reset at the stream limit")


def read_state(words, client):
    no = words.accept("not")
    state = words.want(*STATES)
    missing = {"complete": incomplete, "admitted": unadmitted}[state]
    if no:
        return opened(client, lambda world: instead(missing(world, client), f"c{client} is {state}"))
    return opened(client, lambda world: missing(world, client))


def unadmitted(world, client):
    return instead("admitted" in world.states[client], f"c{client} is not admitted")


def incomplete(world, client):
    """Why a client is not complete: something of its connection is left to do, or it did not accept all."""
    states, told = world.states[client], {"aborted": "reset its connection", "reset": "was reset at the stream limit",
                                          "waiting": "waits in the line"}
    for state, what in told.items():
        if state in states:
            return f"c{client} {what}"
    for place, connection, kind in world.timers:
        if connection == client:
            return f"a timer of c{client} runs at {place}: {kind}"
    for node, jobs in world.jobs.items():
        for job in jobs:
            if job.connection == client:
                return f"a job for c{client} is queued at {node}: {job.path}"
    whole, accepted = sum(it.length for it in world.served[client]), len(world.accepted[client])
    return instead(whole <= accepted, f"c{client} accepted {accepted:,} bytes of {whole:,} that were served")


# ---- what a client accepted

def read_accepted(words, client):
    """nothing, N bytes, or texts with ... where anything may stand between them."""
    if words.accept("nothing"):
        return opened(client, lambda world: instead(not world.accepted[client], accepts(world, client)))
    if isinstance(words.peek(), str) and words.peek() != "..." and words.peek(1) in ("byte", "bytes"):
        count = words.number("a number of bytes")
        words.take("bytes")
        return opened(client, lambda world: instead(len(world.accepted[client]) == count, accepts(world, client)))
    pieces = read_pieces(words)
    pattern = re.compile(b"".join(b".*" if it is None else re.escape(it) for it in pieces), re.S)
    whole = b"".join(it or b"" for it in pieces)

    def tell(world):
        accepted = bytes(world.accepted[client])
        return instead(pattern.fullmatch(accepted), accepts(world, client) + differs(accepted, whole, None in pieces))
    return opened(client, tell)


def read_pieces(words):
    pieces = []
    while words.peek() is not None:
        word = words.take("a text")
        if word == "...":
            pieces.append(None)
        elif isinstance(word, bytes):
            pieces.append(word)
        else:
            raise Fault(f'`{word}`: behind `accepted` stands `nothing`, a number of bytes, or a "text", with ... for any bytes')
    if not pieces:
        raise Fault("the line ends where what was accepted is to stand")
    return pieces


def accepts(world, client):
    accepted = bytes(world.accepted[client])
    if not accepted:
        return f"c{client} accepted nothing"
    return f"c{client} accepted {reports.count(len(accepted), 'byte')}: {shown(accepted)}"


def differs(accepted, wanted, has_gaps):
    """Where two texts part, if that can be said."""
    if has_gaps or not accepted:
        return ""
    same = 0
    while same < min(len(accepted), len(wanted)) and accepted[same] == wanted[same]:
        same += 1
    if same == len(wanted):
        return f", {reports.count(len(accepted) - same, 'byte')} more"
    return f", another from byte {same + 1} on" if same < len(accepted) else f", without the last {len(wanted) - same}"


def read_answers(words):
    """answers of c1 are 200 404"""
    words.want("answers")
    words.want("of", "to")
    client = words.client()
    words.want("are", "is")
    wanted = []
    if not words.accept("none"):
        wanted = [words.number("a code", 100, 599)]
        while words.peek() is not None:
            wanted.append(words.number("a code", 100, 599))
    text = lambda codes: " ".join(map(str, codes)) or "none"
    return opened(client, lambda world: instead(
        world.codes(client) == wanted, f"answers of c{client} are {text(world.codes(client))}"))


# ---- what was served where

def read_served(words, client):
    """[c1] served N [at P] [by WAY] [with CODE]"""
    count = words.number("a number of answers")
    place = words.place() if words.accept("at") else None
    way, code = None, None
    if words.accept("by"):
        way = words.take("a way")
        if way not in WAYS and not (is_place(way) and way[0] == "n"):
            raise Fault(unknown(way, [*WAYS, "n1"], "for a way"))
    if words.accept("with"):
        code = words.number("a code", 100, 599)

    def tell(world):
        served = world.served_at([client] if client else sorted(world.served))
        found = sum(n for (p, w, c), n in served.items() if place in (None, p) and way in (None, w) and code in (None, c))
        return instead(found == count, "served were " + served_text(served))
    return opened(client, tell) if client else Condition(tell)


def served_text(served):
    return ", ".join(f"{n} at {p} by {w} with {c}" for (p, w, c), n in sorted(served.items())) or "none"


def read_all_served(words):
    words.want("served")
    return read_served(words, None)


def read_owner(words):
    """owner of c1 is n2"""
    words.want_all("owner of")
    client = words.client()
    words.want("is")
    wanted = None if words.accept("nobody") else words.place("a place, or `nobody`,")
    return opened(client, lambda world: instead(
        world.owners.get(client) == wanted, f"owner of c{client} is {world.owners.get(client) or 'nobody'}"))


def read_request(words):
    """request 2 of c1 is assigned to n2"""
    words.want("request")
    if not isinstance(words.peek(), str) or not words.peek().isdigit():
        words.at -= 1
        return read_on_the_way(words)
    request = words.number("the number of a request", 1)
    words.want("of")
    client = words.client()
    words.want_all("is assigned to")
    wanted = None if words.accept("nobody") else words.node()

    def tell(world):
        node = world.assigned.get((client, request))
        return instead(node == wanted, f"request {request} of c{client} is assigned to {node or 'nobody'}")
    return opened(client, tell)


def read_set(words):
    """/a is served by n1 n2"""
    path = words.take("a path")
    words.want_all("is served by")
    wanted = set()
    if not words.accept("nobody"):
        while words.peek() is not None or not wanted:
            wanted.add(words.node())
    text = lambda nodes: " ".join(sorted(nodes, key=reports.number_of)) or "nobody"
    return Condition(lambda world: instead(set(world.sets[path]) == wanted, f"{path} is served by {text(world.sets[path])}"))


def read_jobs(words):
    """jobs of n1 are /a /b"""
    words.want("jobs")
    words.want("of", "at")
    node = words.node()
    words.want("are", "is")
    wanted = [] if words.accept("none") else words.rest()
    text = lambda jobs: " ".join(jobs) or "none"

    def tell(world):
        jobs = [job.path for job in world.jobs[node]]
        return instead(jobs == wanted, f"jobs of {node} are {text(jobs)}")
    return Condition(tell)


def read_node(words):
    """n1 is closed; n1 is not closed"""
    node = words.node()
    words.want("is")
    is_wanted = not words.accept("not")
    words.want("closed")

    def tell(world):
        is_closed = node in world.closed
        return instead(is_closed == is_wanted, f"{node} is {'closed' if is_closed else 'open'}")
    return Condition(tell)


# ---- timers

def read_timer(words, is_wanted=True):
    """timer of c1 at front runs; no timer of c1 runs"""
    words.want("timer")
    client, place = None, None
    while words.peek() in ("of", "at"):
        if words.take("of or at") == "of":
            client = words.client()
        else:
            place = words.place()
    words.want("runs")

    def tell(world):
        running = [it for it in world.timers if client in (None, it[1]) and place in (None, it[0])]
        text = ", ".join(f"{kind} of c{connection} at {at}" for at, connection, kind in running)
        return instead(bool(running) == is_wanted, f"these run: {text}" if running else "none runs")
    return Condition(tell)


# ---- packets on the way

def read_on_the_way(words):
    """NAME is on the way; 2 NAME are on the way"""
    word = words.peek()
    count = words.number("a number of packets", 1) if isinstance(word, str) and word.isdigit() else None
    known = [*FORMS, *names.KINDS]
    if count is None and not is_name(word):
        raise Fault(unknown(word, known, "for the first word of an expectation"))
    name = names.read_name(words, False)
    words.want("is", "are")
    words.want_all("on the way")
    return Condition(lambda world: matching(world, name, count))


def is_name(word):
    return word in ("the", "its") or word in names.KINDS or word in names.PLURALS


def matching(world, name, count):
    found = name.among(world.way, world)
    if len(found) == count or found and count is None:
        return None
    if found or not world.way:
        return "on the way: " + briefly(world, found)
    return "on the way is nothing such, but: " + briefly(world, sorted(world.way))


def briefly(world, numbers):
    return "; ".join(names.told(world, it) for it in numbers[:names.LISTED]) or "nothing"


def read_nothing(words):
    """nothing [of c1] is on the way; nothing came of it"""
    words.want("nothing")
    if words.accept("came"):
        words.want_all("of it")
        return Condition(nothing_came)
    client = words.client() if words.accept("of") else None
    words.want_all("is on the way")
    return Condition(lambda world: exactly(world, client, []))


def nothing_came(world):
    """The schedule's last line changed nothing: what it brought was dropped."""
    came = [record.kind for record in world.last if record.kind not in ("got", "lost")]
    return instead(not came, "of it came: " + ", ".join(came))


def read_no(words):
    """no timer .. runs; no NAME is on the way"""
    words.want("no")
    if words.peek() == "timer":
        return read_timer(words, False)
    name = names.read_name(words, False)
    words.want("is", "are")
    words.want_all("on the way")
    return Condition(lambda world: matching(world, name, 0))


def read_whole_way(words):
    """on the way [of c1]: NAME, 2 NAME, .."""
    words.want_all("on the way")
    client = words.client() if words.accept("of") else None
    words.want(":")
    wanted = []
    while words.peek() is not None:
        word = words.peek()
        count = words.number("a number of packets", 1) if isinstance(word, str) and word.isdigit() else 1
        wanted += [names.read_name(words, False)] * count
        if not words.accept(","):
            break
    if not wanted:
        raise Fault("the line ends where the packets on the way are to stand: `expect nothing is on the way`, if so")
    return Condition(lambda world: exactly(world, client, wanted))


def exactly(world, client, wanted):
    """The packets on the way are one for each of these names, and no others."""
    on_way = [it for it in sorted(world.way) if client in (None, world.way[it].connection)]
    taken = {}  # packet: the place of its name among those wanted
    unmet = [name.text for at, name in enumerate(wanted) if not assign(world, on_way, wanted, at, taken, set())]
    rest = [it for it in on_way if it not in taken]
    if not unmet and not rest:
        return None
    came = "on the way: " + briefly(world, on_way)
    return came + (f" (without `{unmet[0]}`)" if unmet else f" (packet {rest[0]} is not named)" if wanted else "")


def assign(world, on_way, wanted, at, taken, tried):
    """Gives the name at this place a packet, and moves others where need be: a step of a bipartite matching."""
    for packet in on_way:
        if packet in tried or not wanted[at].fits(world.way[packet], world):
            continue
        tried.add(packet)
        if packet not in taken or assign(world, on_way, wanted, taken[packet], taken, tried):
            taken[packet] = at
            return True
    return False


# ---- ends

def read_settled(words):
    is_wanted = words.want("settled", "unsettled") == "settled"

    def tell(world):
        if world.settled is None:
            return "nothing was to settle"
        left = f"settled after {world.settled.rounds}" if world.settled.kind == "settled" else f"{world.settled.left} left"
        return instead((world.settled.kind == "settled") == is_wanted, left)
    return Condition(tell)


def read_status(words):
    """status 2 [line 5]"""
    words.want("status")
    status = words.number("a status", 0, 6)
    line = words.number("a line of the schedule", 1) if words.accept("line") else None

    def tell(end):
        is_so = end.status == status and line in (None, end.line)
        return instead(is_so, f"status {end.status}" + (f" line {end.line}" if end.line else "") + said(end))
    return Condition(tell, True)


def said(end):
    return f": {end.why}" if end.why else ""


def read_refused(words):
    """refused "packet 2 was lost" """
    words.want("refused")
    why = words.take("why, as a text,")
    if not isinstance(why, bytes):
        raise Fault(f'`{why}`: behind `refused` stands why, as a text: "packet 2 was lost"')
    wanted = why.decode("latin-1")
    return Condition(lambda end: instead(
        end.status != 0 and end.why == wanted, f"refused {shown(end.why.encode())}" if end.status else "nothing was refused"), True)


FORMS = {
    "owner": read_owner, "answers": read_answers, "served": read_all_served, "request": read_request, "jobs": read_jobs,
    "timer": read_timer, "no": read_no, "nothing": read_nothing, "on": read_whole_way,
    "settled": read_settled, "unsettled": read_settled, "status": read_status, "refused": read_refused,
}
