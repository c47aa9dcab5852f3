"""Reads a script: each of its lines becomes what a player is to do. docs/SCRIPT.md has the language.

A line of a schedule stands for itself. Its words may be written as people write them: `c1` for client 1, a text for bytes.
"""

import re

from scripting import expectations, names, segments
from scripting.words import Fault, Words, is_place, number_of, spelled, unknown, words_of

CLIENTS, FOUR_BYTES, ROUNDS = 16384, 2**32 - 1, 2**32 - 1
KEYS = "nodes low high age idle over miss cache stream".split()
WITHIN = 1000  # so many deliveries `deliver until` tries at most, where the line does not say


class Line:
    """A line that says something: its number, and do(player). is_of_end: it asks how the program ended."""

    def __init__(self, number, do, is_of_end=False):
        self.number, self.do, self.is_of_end = number, do, is_of_end


class Reader:
    """What the lines so far have said, as far as the next one's meaning hangs on it."""

    def __init__(self):
        self.its = None  # the connection that was named last
        self.seen = []  # the first words of the lines before
        self.number = 0

    def read(self, text):
        """All lines that say something. A Fault has its `line`."""
        lines = []
        for self.number, line in enumerate(text.split("\n"), 1):
            try:
                found = self.read_line(line)
                if found and lines and lines[-1].is_of_end and not found.is_of_end:
                    raise Fault("behind `expect refused` and `expect status` the run is over")
            except Fault as fault:
                fault.line = self.number
                raise
            if found:
                lines.append(found)
        if not self.seen:
            raise Fault("the script says nothing; its first line is `lard 1`", line=self.number)
        if "go" not in self.seen and not lines[-1].is_of_end:
            raise Fault("the script ends before `go`", line=self.number)
        return lines

    def read_line(self, line):
        words = words_of(line)
        if not words:
            return None
        if words[0] in ("deliver", "lose", "expect"):
            words = split_at_marks(words)
        cursor = Words(words, self.its)
        first = cursor.take("a word")
        if first not in FORMS:
            raise Fault(unknown(first, FORMS, "for the first word"))
        self.check_order(first, cursor)
        found = Line(self.number, *FORMS[first](cursor, first))
        cursor.end()
        self.seen.append(first)
        if cursor.named:
            self.its = cursor.named[-1]
        return found

    def check_order(self, first, cursor):
        """`lard 1`, the numbers of the configuration, the files, `go`, and then the events."""
        if not self.seen and (first, cursor.peek()) != ("lard", "1"):
            raise Fault("a script begins with `lard 1`, as a schedule does")
        if self.seen and first == "lard":
            raise Fault("`lard 1` is the first line alone")
        if first in HEAD and "go" in self.seen:
            raise Fault(f"`{first}` stands before `go`")
        if first not in HEAD and first != "expect" and "go" not in self.seen:
            raise Fault(f"`{first}` stands behind `go`")
        if first in KEYS and first in self.seen:
            raise Fault(f"`{first}` stands twice")
        if first in KEYS and {"file", "fill"} & set(self.seen):
            raise Fault(f"`{first}` stands before the files")


def split_at_marks(words):
    """A comma or a colon at the end of a word is a word of its own."""
    found = []
    for word in words:
        if isinstance(word, str) and len(word) > 1 and word[-1] in ",:":
            found += [word[:-1], word[-1]]
        else:
            found.append(word)
    return found


# ---- the words of plain lines

def plain(line):
    return (lambda player: player.tell(line),)


def client_of(words):
    """The number of a client, as 1 or c1."""
    if is_place(words.peek()):
        return words.client()
    client = words.number("the number of a client", 1, CLIENTS)
    words.named.append(client)
    return client


def node_of(words):
    """The number of a node, as 1 or n1."""
    return words.node()[1:] if is_place(words.peek()) else words.number("the number of a node")


def path_of(words, is_file=False):
    word = words.take("a path")
    if not isinstance(word, str) or not re.fullmatch("/[!-~]{0,1023}", word):
        raise Fault(f"`{spelled(word)}` is no path: `/` and at most 1,023 bytes from ! to ~")
    if is_file and "?" in word:
        raise Fault(f"`{word}`: a file has no ? in its path")
    return word


def hex_of(words, what):
    """Bytes, as texts and hexadecimal digits, to the end of the line."""
    data = b""
    while words.peek() is not None:
        data += segments.bytes_of(words.take("bytes"))
    if not data:
        raise Fault(f"{what} has at least one byte")
    return data.hex()


def read_lard(words, _):
    words.want("1")
    return plain("lard 1")


def read_key(words, key):
    return plain(f"{key} {words.number(f'`{key}`')}")


def read_go(_, __):
    return (lambda player: player.go(),)


def read_file(words, _):
    path = path_of(words, True)
    if words.peek() in ("-", b""):
        words.take("bytes")
        return plain(f"file {path} -")
    return plain(f"file {path} {hex_of(words, 'a file with another content than - ')}")


def read_fill(words, _):
    path, count = path_of(words, True), words.number("a number of bytes", 0, 2**26)
    byte = segments.bytes_of(words.take("a byte"))
    if len(byte) != 1:
        raise Fault("`fill` has one byte behind the number of bytes")
    return plain(f"fill {path} {count} {byte.hex()}")


def read_open(words, _):
    """open C ISN ISS WND MSS, or open C and the numbers that are to be others than usual."""
    client = client_of(words)
    usual = {"isn": 1000 * client, "iss": 4000 + 1000 * client, "window": 65535, "mss": 1460}
    bounds = {"isn": (0, FOUR_BYTES), "iss": (0, FOUR_BYTES), "window": (1, 65535), "mss": (1, 1460)}
    if isinstance(words.peek(), str) and words.peek().isdigit():
        for name in usual:
            usual[name] = words.number(f"`{name}`", *bounds[name])
    else:
        while words.peek() is not None:
            name = words.want(*usual)
            usual[name] = words.number(f"`{name}`", *bounds[name])
    return plain(f"open {client} " + " ".join(map(str, usual.values())))


def read_get(words, _):
    return plain(f"get {client_of(words)} {path_of(words)}")


def read_write(words, _):
    return plain(f"write {client_of(words)} {hex_of(words, 'a `write`')}")


def read_client_alone(words, form):
    return plain(f"{form} {client_of(words)}")


def read_timer(words, _):
    place = words.place()
    if place[0] == "c" and words.peek() is None:
        return plain(f"timer {place} {place[1:]}")
    client = client_of(words)
    if place[0] == "c" and int(place[1:]) != client:
        raise Fault(f"at a client's place only its own timer runs: `timer c{client}`")
    return plain(f"timer {place} {client}")


def read_clock(words, _):
    return plain(f"clock {words.number('the milliseconds', 0, FOUR_BYTES)}")


def read_settle(words, _):
    return plain(f"settle {words.number('the number of rounds', 1, ROUNDS)}")


def read_inject(words, _):
    client = client_of(words)
    if words.peek() == "segment":
        segment = segments.read_segment(words)
        return (lambda player: player.inject(client, segment),)
    data = hex_of(words, "an `inject`")
    if len(data) > 2 * segments.LONGEST:
        raise Fault(f"{len(data) // 2:,} bytes; a packet that is injected has at most {segments.LONGEST:,}")
    return plain(f"inject {client} {data}")


# ---- packets and disks

def read_packets(words, form):
    """deliver or lose, and which packets."""
    if form == "deliver" and words.peek() == "until":
        return read_until(words, everything())
    items = [read_item(words, form)]
    if words.peek() == "until" and form == "deliver":
        return read_until(words, items[0][0])
    while words.peek() is not None:
        if not words.accept(",") and not (isinstance(words.peek(), str) and words.peek().isdigit()):
            break
        items.append(read_item(words, form))
    return (lambda player: player.handle(form, items),)


def everything():
    return names.read_name(Words(["everything"]))


def read_item(words, form):
    """A number or a name; what is left out of it; and whether it comes again."""
    word = words.peek()
    if isinstance(word, str) and word.isdigit():
        return words.number("the number of a packet"), None, False
    name = names.read_name(words)
    but = names.read_name(words, False) if words.accept("but") else None
    if but and name.which != "all":
        raise Fault(f"`but` stands behind `everything` or `all ..`, and `{name.text}` is one packet")
    again = bool(words.accept("again"))
    if again and form == "lose":
        raise Fault("`again` is for `deliver`: a packet that came is not lost any more")
    return name, but, again


def read_until(words, name):
    """deliver [everything ..] until CONDITION [within N]"""
    words.want("until")
    if not isinstance(name, names.Name) or name.which != "all":
        raise Fault("before `until` stands `everything`, or `all` and a kind of packet")
    within, words.words = within_of(words.words)
    condition = expectations.read(words)
    if condition.is_of_end:
        raise Fault("`until` wants something that holds while the program runs")
    return (lambda player: player.deliver_until(name, condition, within),)


def within_of(words):
    if len(words) > 2 and words[-2] == "within":
        return number_of(words[-1], "the number of deliveries", 1, 10**6), words[:-2]
    return WITHIN, words


def read_disk(words, _):
    """disk N J; disk all of n1; disk [1st | last | all] /a of n1 [for c2]"""
    word = words.peek()
    if is_place(word) or isinstance(word, str) and word.isdigit():
        return plain(f"disk {node_of(words)} {words.number('the place of a job')}")
    which, path, client = names.read_order(words), None, None
    if which != "all" or words.peek() not in ("of", "at"):
        path = path_of(words)
    words.want("of", "at")
    node = words.node()
    if words.accept("for"):
        client = words.client()
    return (lambda player: player.disk(node, which, path, client),)


def read_drain(words, _):
    return plain(f"drain {node_of(words)}")


def read_expect(words, _):
    condition = expectations.read(words)
    return (lambda player: player.expect(condition)), condition.is_of_end


FORMS = {
    "lard": read_lard, **{key: read_key for key in KEYS}, "file": read_file, "fill": read_fill, "go": read_go,
    "open": read_open, "get": read_get, "write": read_write,
    **{form: read_client_alone for form in ("shut", "abort", "hold", "take")},
    "deliver": read_packets, "lose": read_packets, "timer": read_timer, "disk": read_disk, "drain": read_drain,
    "clock": read_clock, "settle": read_settle, "inject": read_inject, "expect": read_expect,
}
HEAD = {"lard", *KEYS, "file", "fill", "go"}


def read_script(text):
    return Reader().read(text)
