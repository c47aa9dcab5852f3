"""Names of packets: by what they are, by connection, place and path, and by the order in which they were sent.

    [the | its] [1st | 2nd | .. | first | last | all] KIND [of c1 | of n2] [for c1 | for /path] [from PLACE] [to PLACE]

docs/SCRIPT.md has the meaning of each word.
"""

import re

import report as reports
from scripting.words import Fault, spelled, unknown

LISTED = 20  # so many packets are told where a name fits none or several


def has(*flags):
    return lambda packet, _: packet.segment is not None and set(flags) <= packet.segment.flags


def is_message(kind):
    return lambda packet, _: packet.message is not None and packet.message.kind == kind


def is_bare(packet, _):
    """An ACK that brings nothing else."""
    part = packet.segment
    return part is not None and "ACK" in part.flags and not part.data and not part.flags & {"SYN", "FIN", "RST"}


def has_data(packet, _):
    return packet.segment is not None and len(packet.segment.data) > 0


KINDS = {  # what a packet has to be
    "packet": lambda packet, _: True,
    "segment": lambda packet, _: packet.segment is not None,
    "syn": lambda packet, world: has("SYN")(packet, world) and "ACK" not in packet.segment.flags,
    "syn-ack": has("SYN", "ACK"),
    "ack": is_bare,
    "data": has_data,
    "fin": has("FIN"),
    "rst": has("RST"),
    "request": lambda packet, world: has_data(packet, world) and packet.source[0] == "c",
    "answer": lambda packet, world: has_data(packet, world) and packet.target[0] == "c",
    "injected": lambda packet, world: packet.packet in world.injected,
    "message": lambda packet, _: packet.message is not None,
    "offer": is_message("Offer"),
    "taken": is_message("Taken"),
    "forward": is_message("Forward"),
    "ask": is_message("Ask"),
    "tag": is_message("Tag"),
    "fetch": is_message("Fetch"),
    "content": is_message("Content"),
    "ended": is_message("Ended"),
    "ended-ack": is_message("EndedAck"),
    "refused": is_message("Refused"),
    "give": is_message("Give"),
    "given": is_message("Given"),
}
PLURALS = {"everything": "packet", "fetches": "fetch"} | {kind + "s": kind for kind in KINDS}
ORDINAL = re.compile(r"([1-9][0-9]*)(st|nd|rd|th)")
REQUEST = re.compile(rb"(?:^|\n)[A-Z]+ (/[!-~]*) HTTP/1\.[01]\r\n")


class Name:
    """which: None where one packet alone has to fit, "all", "last", or a number counted from 1."""

    def __init__(self):
        self.which = self.kind = None
        self.connection = self.source = self.target = self.path = None
        self.text = ""

    def fits(self, packet, world):
        """Whether this name fits a packet, by all but its order."""
        return (
            KINDS[self.kind](packet, world)
            and self.connection in (None, packet.connection)
            and self.source in (None, packet.source)
            and self.target in (None, packet.target)
            and (self.path is None or self.path in paths_of(packet, world))
        )

    def among(self, packets, world):
        """The numbers of those of these packets that it fits, oldest first."""
        return [number for number in sorted(packets) if self.fits(packets[number], world)]


# ---- reading

def read_name(words, is_counted=True):
    """A name, as far as it goes. is_counted: whether it may say which one of several."""
    name, begin = Name(), words.at
    if words.accept("its"):
        if words.its is None:
            raise Fault("`its` has no connection that a line above names")
        name.connection = words.its
        words.named.append(words.its)
    else:
        words.accept("the")
    if is_counted:
        name.which = read_order(words)
    name.kind = read_kind(words, name)
    while read_part(words, name):
        pass
    name.text = " ".join(spelled(it) for it in words.words[begin:words.at])
    return name


def read_order(words):
    word = words.accept("all", "last", "first")
    if word:
        return 1 if word == "first" else word
    found = ORDINAL.fullmatch(words.peek()) if isinstance(words.peek(), str) else None
    if not found:
        return None
    words.take("an ordinal")
    if found[2] != suffix(int(found[1])):
        raise Fault(f"`{found[0]}`: did you mean `{found[1]}{suffix(int(found[1]))}`?")
    return int(found[1])


def suffix(number):
    return "th" if number % 100 in (11, 12, 13) else {1: "st", 2: "nd", 3: "rd"}.get(number % 10, "th")


def read_kind(words, name):
    word = words.take("a kind of packet, as `offer`,")
    kind = word if word in KINDS else PLURALS.get(word)
    if kind is None:
        raise Fault(unknown(word, [*KINDS, "everything"], "for a kind of packet"))
    if word == "everything":
        name.which = name.which or "all"
    return kind


def read_part(words, name):
    """One more part of a name, or nothing."""
    word = words.accept("of", "for", "from", "to")
    if word is None:
        return False
    behind = words.peek()
    if word == "for" and isinstance(behind, str) and behind.startswith("/"):
        put(name, "path", words.take("a path"))
        return True
    place = words.place()
    if word == "to":
        put(name, "target", place)
    elif word == "from" or word == "of" and place[0] != "c":
        put(name, "source", place)
    elif place[0] == "c":
        put(name, "connection", int(place[1:]))
    else:
        raise Fault(f"`for {place}`: `for` has a client or a path behind it, `to` and `from` any place")
    return True


def put(name, field, value):
    if getattr(name, field) is not None:
        raise Fault(f"a name says twice which {field} it means")
    setattr(name, field, value)


# ---- choosing

def choose(name, world, again=False):
    """The numbers of the packets that a name says, of those on the way, or again of those that came."""
    found = name.among(world.came if again else world.way, world)
    meant = pick(name.which, found)
    if not meant:
        raise unfound(name, world, found, again)
    return meant


def pick(which, found):
    """Those that are meant of what was found, in its order. Without a word one alone has to be there."""
    if which == "all":
        return found
    if which == "last":
        return found[-1:]
    if which is None:
        return found if len(found) == 1 else []
    return found[which - 1:which]


def unfound(name, world, found, again):
    """Why a name says no packet, with those that it could mean."""
    where = "came before" if again else "is on the way"
    if found and name.which is None:
        many = "came before" if again else "are on the way"
        return Fault(f"`{name.text}` fits {len(found)} packets that {many}: say `1st`, `last` or `all`", listed(world, found))
    if found:
        where = where if len(found) == 1 else where.replace("is", "are")
        why = f"`{name.text}`: {reports.count(len(found), 'such packet')} {where}"
        return Fault(why, listed(world, found))
    why = f"no `{name.text}` {where}"
    others = [
        (world.way if again else world.came, "{0} is on the way and did not come before: leave out `again`" if again else
         "{0} came before: say `again`"),
        (world.lost, "{0} was lost"),
    ]
    for packets, hint in others:
        fitting = name.among(packets, world)
        if fitting:
            why += "; " + hint.format(f"packet {fitting[-1]}")
    packets = world.came if again else world.way
    return Fault(why, listed(world, sorted(packets), "these came before:" if again else "on the way:"))


def listed(world, numbers, heading="they are:"):
    """Packets, a line each."""
    if not numbers:
        return [f"{heading} none"]
    lines = [heading] + [f"  {told(world, number)}" for number in numbers[:LISTED]]
    if len(numbers) > LISTED:
        lines.append(f"  and {len(numbers) - LISTED:,} more")
    return lines


def told(world, number):
    """A packet in some words: packet 4 of c1, front to n1: Offer epoch 2, 31 unread."""
    sent = world.report.packets[number - 1]
    return f"packet {number} of c{sent.connection}, {sent.source} to {sent.target}: {reports.brief(world.report, sent)}"


# ---- paths

def paths_of(packet, world):
    """The paths that a packet is about."""
    if packet.segment:
        return requested(packet.segment.data) if packet.source[0] == "c" else []
    body = packet.message
    if body is None:
        return []
    if body.kind in ("Offer", "Give"):
        return requested(body.unread)
    if body.kind == "Forward":
        return requested(body.segment.data) if body.segment else []
    if body.kind == "Ask":
        return body.paths
    if body.kind == "Fetch":
        return [body.path]
    return asked_for(packet, world)


def requested(data):
    return [path.decode("latin-1") for path in REQUEST.findall(data)]


def asked_for(packet, world):
    """The paths of the Ask that a Tag answers, and that of the Fetch that a Content answers."""
    body = packet.message
    question, field = {"Tag": ("Ask", "number"), "Content": ("Fetch", "request")}.get(body.kind, (None, None))
    for before in reversed(world.report.packets[:packet.packet - 1]):
        asked = before.message
        if (asked and asked.kind == question and asked.connection == body.connection
                and getattr(asked, field) == getattr(body, field)):
            return asked.paths if question == "Ask" else [asked.path]
    return []
