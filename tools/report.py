"""Reads a report of lardsim, and the packets in it. docs/REPORT.md and docs/FORMATS.md say what stands there, and
docs/REPORTS-FOR-PROGRAMS.md what a program of your own gets of it.

read(path) and parse(text) give a Report, or raise a ReportError with the line that is none of a report. To import this
module changes nothing in the process that does.
"""

import re
import sys
from types import SimpleNamespace

# ---- lines: each kind with its fields. Only these are read, so a new record needs its row here.

RECORDS = {
    "opened": "connection isn iss window mss",
    "wrote": "connection bytes",
    "sent": "packet source target bytes",
    "got": "packet",
    "lost": "packet",
    "accepted": "connection bytes",
    "eof": "connection",
    "took": "place connection epoch",
    "gave": "place connection epoch",
    "waits": "connection",
    "admitted": "connection",
    "released": "connection",
    "assigned first": "connection request path node add remove",
    "assigned later": "connection request path node add size queue",
    "batchover": "connection",
    "served": "place connection request code length via",
    "hit": "place path",
    "queued": "place reader connection request path",
    "read": "place reader connection request path",
    "closed": "place",
    "armed": "place connection timer",
    "cleared": "place connection timer",
    "reset": "place connection count",
    "aborted": "connection",
    "injected": "connection",
    "clock": "time",
    "settled": "rounds",
    "unsettled": "rounds left",
}

EVENTS = {
    "open": "connection isn iss window mss",
    "get": "connection path",
    "write": "connection bytes",
    "shut": "connection",
    "abort": "connection",
    "hold": "connection",
    "take": "connection",
    "deliver": "packet",
    "lose": "packet",
    "timer": "place connection",
    "disk": "node job",
    "drain": "node",
    "clock": "time",
    "settle": "rounds",
    "inject": "connection bytes",
}

OPENERS = "event", "inner"  # a step begins with one of these
KEYS = "nodes low high age idle over miss cache stream".split()

NUMBER = r"(?:0|[1-9][0-9]*)"
NODE = r"(?:[1-9]|[1-5][0-9]|6[0-4])"
PLACE = rf"(?:front|n{NODE}|c{NUMBER})"
SHAPES = {
    "bytes": r"(?:[0-9a-f]{2})+",
    "path": r"/[!-~]*",
    "place": PLACE, "source": PLACE, "target": PLACE, "reader": PLACE,
    "via": rf"(?:own|cache|disk|node{NODE})",
    "timer": r"(?:tcp|offer|ask|fetch|ended|give)",
    "add": rf"(?:-|{NODE})", "remove": rf"(?:-|{NODE})",
}  # every other field is a number


def fields_of(names, words):
    """The fields of these names, or None where the words are not of their shapes."""
    names = names.split()
    if len(names) != len(words):
        return None
    fields = {}
    for name, word in zip(names, words):
        if not re.fullmatch(SHAPES.get(name, NUMBER), word):
            return None
        if name == "bytes":
            word = bytes.fromhex(word)
        elif name not in SHAPES:
            word = int(word)
        if name == "connection" and not 1 <= word <= 16384:
            return None
        fields[name] = word
    return fields


def record_of(words):
    """The record that these words are, or None."""
    kind = words[0]
    if kind in OPENERS:
        number, form = (words[1:2], words[2:]) if kind == "event" else (["0"], words[1:])
        fields = fields_of(EVENTS[form[0]], form[1:]) if form and form[0] in EVENTS else None
        if fields is None or not number or not re.fullmatch(NUMBER, number[0]):
            return None
        return Record(kind=kind, form=form[0], number=int(number[0]), text=" ".join(form), **fields)
    if kind == "assigned":  # its third word says which of two kinds it is
        kind, words = " ".join(["assigned", *words[3:4]]), words[:3] + words[4:]
    fields = fields_of(RECORDS[kind], words[1:]) if kind in RECORDS else None
    return None if fields is None else Record(kind=kind, **fields)


# ---- the whole

class ReportError(Exception):
    """A file that is no report, or that cannot be read. path: its name. line: the line that is wrong, or None. fault: what is
    wrong there, in words."""

    def __init__(self, path, line, fault):
        self.path, self.line, self.fault = path, line, fault
        super().__init__(f"{path}: {fault}" if line is None else f"{path}: line {line}: {fault}")


class Record(SimpleNamespace):
    """A line of a report. kind: its first word, with `first` or `later` behind `assigned`. line: its number in the report.
    connection: the one that it is about, or None. Its other fields are those of RECORDS, or of EVENTS where kind is `event`
    or `inner`. A `sent` has segment and message too, of which at most one is not None."""


class Step(SimpleNamespace):
    """name: 5, or 5.3 for the third step inside event 5. number: of its event, 5. at: its place in Report.steps, from 0 on.
    event: the record that began it. records: those behind it."""


class Report:
    """path: its name. config: a number for each key. files: a length for each path. steps: each with its event and its
    records. packets: the record `sent` of each packet, from packet 1 on, its contents in `segment` or `message`. opened: the
    record `opened` of each connection."""

    def __init__(self, path=""):
        self.path, self.config, self.files, self.steps, self.packets, self.opened = path, {}, {}, [], [], {}
        self.events = self.inner = 0  # how many events, and how many steps inside the last of them

    def steps_of(self, connection):
        """The steps of this connection, each with its records that are of it, or of none."""
        for step in self.steps:
            records = [r for r in step.records if r.connection in (connection, None)]
            if step.event.connection in (connection, None) or records:
                yield step, records

    def records(self):
        """Each line of the report behind its files: its step, and the record, which for a step's first line is its event."""
        for step in self.steps:
            yield step, step.event
            for record in step.records:
                yield step, record


def read(path):
    """The report in this file; `-` is standard input."""
    try:
        if path == "-":
            return parse(sys.stdin.buffer.read(), "standard input")
        with open(path, "rb") as file:
            return parse(file.read(), path)
    except OSError as error:
        raise ReportError(path, None, error.strerror) from None


def parse(text, path="report"):
    """The report in these bytes. The name is told where they are none."""
    report, line = Report(path), 0
    lines = text.decode("latin-1").split("\n")
    try:
        for line, words in enumerate((one.split(" ") for one in lines[:-1]), 1):
            if line == 1:
                heading(report, words)
            elif words[0] == "file" and not report.steps:
                file = fields_of("path length", words[1:])
                if file is None:
                    raise ValueError("not a line of a report")
                report.files[file["path"]] = file["length"]
            else:
                add(report, line, words)
        if lines[-1] or line == 0:
            line += 1
            raise ValueError("a line without its end" if lines[-1] else "not the heading of a report")
    except ValueError as error:
        raise ReportError(path, line, str(error)) from None
    return report


def chosen(report, words):
    """The connections that a tool's words choose: REPORT names all of them, REPORT CONNECTION... those."""
    known = {str(connection): connection for connection in report.opened}
    for word in words[1:]:
        if word not in known:
            raise ReportError(report.path, None, f"no connection {word}")
    return sorted({known[word] for word in words[1:]} or known.values())


def heading(report, words):
    numbers = words[3::2]
    if words[:2] != ["report", "1"] or words[2::2] != KEYS or not all(re.fullmatch(NUMBER, n) for n in numbers):
        raise ValueError("not the heading of a report")
    report.config = dict(zip(KEYS, map(int, numbers)))


def add(report, line, words):
    """One record more, with its line, and the connection that it is about, if any."""
    record = record_of(words)
    if record is None:
        raise ValueError("not a line of a report")
    if not report.steps and record.kind != "event":
        raise ValueError("a record before the first event")
    record.line = line
    record.connection = getattr(record, "connection", None)
    if record.kind == "sent":
        open_packet(report, record)
        report.packets.append(record)
    elif hasattr(record, "packet"):
        if not 1 <= record.packet <= len(report.packets):
            raise ValueError(f"packet {record.packet} of {len(report.packets)} sent")
        record.connection = report.packets[record.packet - 1].connection
    if record.kind in OPENERS:
        begin(report, record)
        return
    step = report.steps[-1]
    if record.kind == "opened":
        report.opened[record.connection] = record
    elif record.kind == "hit":  # it names no connection, and is of the one before it
        record.connection = step.records[-1].connection if step.records else step.event.connection
    if record.connection is not None:
        must_be_open(report, record.connection)
    if step.event.form == "disk":  # it names none either, and is of the one that it reads for
        step.event.connection = step.event.connection or record.connection
    step.records.append(record)


def must_be_open(report, connection):
    if connection not in report.opened:
        raise ValueError(f"client {connection} not opened")


def begin(report, event):
    """A step begins. Its name is the event's number; inside a settling also the step's, as 5.3."""
    if event.kind == "event":
        report.events, report.inner = report.events + 1, 0
        if event.number != report.events:
            raise ValueError(f"event {event.number} behind event {report.events - 1}")
        name = str(event.number)
    else:
        report.inner += 1
        name = f"{report.events}.{report.inner}"
    report.steps.append(Step(name=name, number=report.events, at=len(report.steps), event=event, records=[]))


# ---- packets

CLUSTER = bytes([10, 0, 0, 1])
FLAGS = ["FIN", "SYN", "RST", "PSH", "ACK", "URG", "ECE", "CWR"]  # from the lowest bit


def client_address(connection):
    return bytes([10, 1, connection >> 8, connection & 255])


def checksum(data):
    """The checksum of IP, TCP and UDP: the complement of the one's complement sum of the words of 16 bits."""
    data += b"\0" * (len(data) % 2)
    total = sum(int.from_bytes(data[i:i + 2], "big") for i in range(0, len(data), 2))
    while total >> 16:
        total = (total & 0xffff) + (total >> 16)
    return total ^ 0xffff


def open_packet(report, sent):
    """Reads the next packet: sent.segment or sent.message is what it is, the other None. Injected bytes may be neither."""
    if sent.packet != len(report.packets) + 1:
        raise ValueError(f"packet {sent.packet} behind packet {len(report.packets)}")
    sent.segment = sent.message = None
    ends = [place for place in (sent.source, sent.target) if place[0] == "c"]
    if ends:
        sent.connection = int(ends[0][1:])
        must_be_open(report, sent.connection)
        sent.segment = segment(sent.bytes, sent.connection, sent.source[0] == "c")
        if sent.segment is None and report.steps[-1].event.form != "inject":
            raise ValueError("bytes that are no segment")
    else:
        sent.message = message(sent.bytes)
        if sent.message is None:
            raise ValueError("bytes that are no message")
        sent.connection = sent.message.connection


def segment(data, connection, from_client):
    """The segment that these bytes are, or None where a place drops them."""
    ends = [client_address(connection), CLUSTER]
    ports = (40000, 80)
    if not from_client:
        ends, ports = ends[::-1], ports[::-1]
    if len(data) < 20 or checksum(ends[0] + ends[1] + bytes([0, 6]) + len(data).to_bytes(2, "big") + data):
        return None
    number = lambda at, size: int.from_bytes(data[at:at + size], "big")
    begin = 4 * (data[12] >> 4)
    if (number(0, 2), number(2, 2)) != ports or not 20 <= begin <= len(data) or not options_read(data[20:begin]):
        return None
    return SimpleNamespace(
        seq=number(4, 4), ack=number(8, 4), window=number(14, 2), data=data[begin:],
        flags={name for bit, name in enumerate(FLAGS) if data[13] >> bit & 1},
    )


def options_read(options):
    """Kind 0 ends the list, kind 1 is one byte, every other kind has a length; that of kind 2 is 4."""
    while options and options[0] != 0:
        size = 1 if options[0] == 1 else options[1] if len(options) > 1 else 0
        if size == 0 or size > len(options) or options[0] > 1 and size < 2 or options[0] == 2 and size != 4:
            return False
        options = options[size:]
    return True


PARTS = "irs 4 iss 4 got 4 fin 1 una 4 wnd 2 wl1 4 wl2 4 mss 2 served 4"  # the numbers of an endpoint that moves
BODIES = {  # of each version and kind of message: its name, and its numbers with their sizes in bytes
    (1, 1): ("Offer", PARTS),
    (1, 2): ("Taken", ""),
    (1, 4): ("Forward", ""),
    (1, 5): ("Ask", "number 4 queue 4 size 1 count 1"),
    (1, 6): ("Tag", "number 4 count 1"),
    (1, 7): ("Fetch", "request 4"),
    (1, 8): ("Content", "request 4"),
    (1, 9): ("Ended", "reason 1 snd 4 rcv 4 count 4"),
    (1, 10): ("EndedAck", ""),
    (2, 3): ("Refused", ""),
    (2, 11): ("Give", PARTS),
    (2, 12): ("Given", ""),
}
REASONS = ["both sides closed", "reset by the client", "stream limit"]  # of an Ended


def message(data):
    """The message that these bytes are, or None. Its kind and numbers, and with some kinds `unread`, `segment`, `paths`,
    `nodes`, `path` or `content`."""
    if len(data) < 10 or tuple(data[:2]) not in BODIES or int.from_bytes(data[6:10], "big") != len(data) - 10:
        return None
    at = 10

    def take(size):
        nonlocal at
        at += size
        if at > len(data):
            raise IndexError
        return data[at - size:at]

    def number(size):
        return int.from_bytes(take(size), "big")

    kind, names = BODIES[tuple(data[:2])]
    found = SimpleNamespace(kind=kind, connection=int.from_bytes(data[2:4], "big"), epoch=int.from_bytes(data[4:6], "big"))
    try:
        for name, size in zip(names.split()[::2], names.split()[1::2]):
            setattr(found, name, number(int(size)))
        if kind in ("Offer", "Give"):
            found.unread = take(number(2))
        elif kind == "Forward":
            found.segment = segment(take(len(data) - 10), found.connection, True)
        elif kind == "Ask":
            found.paths = [take(number(2)).decode("latin-1") for _ in range(found.count)]
        elif kind == "Tag":
            found.nodes = list(take(found.count))
        elif kind == "Fetch":
            found.path = take(number(2)).decode("latin-1")
        elif kind == "Content":
            found.content = take(number(4))
        elif kind == "Ended":
            found.reason = REASONS[found.reason]
    except IndexError:
        return None
    return found if at == len(data) else None


# ---- words for places and packets

def number_of(place):
    """7 of n7 and of c7, and 0 of the front end."""
    return 0 if place == "front" else int(place[1:])


def first_line(data):
    """GET /a, or HTTP/1.1 200 OK: what the bytes begin with, where that is a whole line of HTTP."""
    line = data.split(b"\r\n")[0].decode("latin-1")
    if b"\r\n" in data and re.fullmatch(r"[A-Z]+ [!-~]+ HTTP/1\.[01]", line):
        return line[:-9]
    if b"\r\n" in data and re.fullmatch(r"HTTP/1\.1 [0-9]{3} [ -~]*", line):
        return line[9:]
    return ""


def count(number, thing):
    return f"{number:,} {thing}" if number == 1 else f"{number:,} {thing}s"


def segment_brief(report, connection, part, from_client):
    """A segment in some words. Numbers are counted from the SYN of their side, which is 0."""
    opened = report.opened[connection]
    mine, other = (opened.isn, opened.iss) if from_client else (opened.iss, opened.isn)
    words = [name for name in ("SYN", "FIN", "RST") if name in part.flags]
    if "ACK" in part.flags and (not part.data and not words or words == ["SYN"]):
        words.append("ACK" if words else f"ACK {(part.ack - other) % 2**32}")
    if part.data:
        line = first_line(part.data)
        words.append(f"seq {(part.seq - mine) % 2**32}, {count(len(part.data), 'byte')}" + (f": {line}" if line else ""))
    return " ".join(words) or "no ACK"


def brief(report, sent):
    """A packet in some words."""
    if sent.segment:
        return segment_brief(report, sent.connection, sent.segment, sent.source[0] == "c")
    body = sent.message
    if body is None:
        return f"{count(len(sent.bytes), 'byte')}, no segment"
    if body.kind in ("Offer", "Give"):
        more = f" epoch {body.epoch}, {len(body.unread)} unread"
    elif body.kind in ("Taken", "Refused", "Given"):
        more = f" epoch {body.epoch}"
    elif body.kind == "Forward":
        more = ": " + (segment_brief(report, body.connection, body.segment, True) if body.segment else "no segment")
    elif body.kind == "Ask":
        more = f" {body.number}: {' '.join(body.paths)}"
    elif body.kind == "Tag":
        more = f" {body.number}: {' '.join(f'n{node}' for node in body.nodes)}"
    elif body.kind == "Fetch":
        more = f" {body.request}: {body.path}"
    elif body.kind == "Content":
        more = f" {body.request}: {count(len(body.content), 'byte')}"
    else:
        more = f": {body.reason}" if body.kind == "Ended" else ""
    return body.kind + more


# ---- as plain values, for JSON and for a data frame

def plain(value):
    """This value of numbers, words, lists and dicts alone: bytes are written in hexadecimal, and flags are in order."""
    if isinstance(value, bytes):
        return value.hex()
    if isinstance(value, set):
        return sorted(value)
    if isinstance(value, SimpleNamespace):
        return {name: plain(part) for name, part in vars(value).items()}
    return value


def rows(report):
    """A dict for each line of the report behind its files. line: its number in the report. step, at, event: the name, the
    place and the number of its step. words: of a `sent`, the packet in some words. The rest is what the record has."""
    for step, record in report.records():
        row = {"line": record.line, "step": step.name, "at": step.at, "event": step.number, **plain(record)}
        row.pop("number", None)  # `event` is this number
        if record.kind == "sent":
            row["words"] = brief(report, record)
        yield row
