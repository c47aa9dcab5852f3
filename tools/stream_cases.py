"""What tools/check-reports tries of tools/stream, and of what tools/explain tells of heard bytes.

- Of each report, by its lines alone: how much was heard is what the cluster acknowledged last, or its Offer counted, and ends
  with the bytes that an Offer carries; of a client in whose name nothing was injected it is a first part of what that wrote.
  What a client accepted is a first part of what was said, and no more is acknowledged than it accepted. Requests have the
  responses that were served. The text says what the JSON says, and the sentences of tools/explain add up to it.
- Reports by hand, each with what is heard and said: another who speaks first, holes, repeats, overlaps, windows, a segment that
  begins before the SYN, a RST, ACKs that count for nothing, bytes that are said otherwise; and streams that cannot be.
"""

import json
import os
import re

import report as reports
from streams import heads
from trial import call_raw, content, fine, new_file

MADE_UP = {"kinds.report"}  # lines of every kind, which are of no run
HEADING = "report 1 nodes 2 low 25 high 65 age 20000 idle 25 over 130 miss 50 cache 1048576 stream 1073741824\n"
OPENED = "event 1 open 1 1000 5000 65535 1460\nopened 1 1000 5000 65535 1460\n"


# ---- reports that are there

class Lines:
    """One connection, by the lines of its report alone."""

    def __init__(self, path, connection):
        lines = [line.split(" ") for line in content(path).splitlines()]
        place, number = f"c{connection}", str(connection)
        of = lambda kind: [words for words in lines if words[0] == kind and words[1] == number]
        self.wrote, self.accepted = (b"".join(bytes.fromhex(words[2]) for words in of(kind)) for kind in ("wrote", "accepted"))
        self.is_touched = bool(of("injected"))
        self.served = [words for words in lines if words[0] == "served" and words[2] == number]
        sent = [(words[2], words[3], bytes.fromhex(words[4])) for words in lines if words[0] == "sent"]
        came = [sent[int(words[1]) - 1] for words in lines if words[0] == "got"]
        self.first = next((number_at(data, 4) for source, _, data in came if source == place and data[13] == 2), 0)
        self.said = [data for source, target, data in sent if target == place and source[0] != "c"]
        self.offers = [data for _, _, data in sent if data[:2] == b"\1\1" and int.from_bytes(data[2:4], "big") == connection]

    def heard(self):
        """How many symbols behind the SYN were heard: an ACK number at bytes 8 to 11 of a segment, a count in an Offer."""
        told = [(number_at(data, 8) - self.first - 1) % 2**32 for data in self.said if data[13] & 16]
        return max([*told, *(number_at(data, 18) + data[22] for data in self.offers)], default=0)

    def sent_bytes(self, first):
        """How many bytes behind the cluster's SYN were said."""
        sizes = [(number_at(data, 4), len(data) - 4 * (data[12] >> 4)) for data in self.said]
        return max(((number - first - 1) % 2**32 + size for number, size in sizes if size), default=0)


def number_at(data, at):
    return int.from_bytes(data[at:at + 4], "big")


def raw(*words):
    """The bytes that tools/stream prints, which has nothing to complain of."""
    status, out, errors = call_raw(["tools/stream", *words])
    if status or errors:
        raise AssertionError(f"{words}: status {status}: {errors}")
    return out


def streamed(path):
    """Each connection of a report."""
    report = reports.read(path)
    for c in report.opened:
        told = json.loads(fine(["tools/stream", path, str(c), "--json"]))
        heard, said = raw(path, str(c), "--heard"), raw(path, str(c), "--said")
        faults = list(texts(path, c, told)) + list(counts(told, heard, said))
        if os.path.basename(path) not in MADE_UP:
            lines = Lines(path, c)
            faults += [*by_the_lines(lines, told, heard, said, report.opened[c].iss), *explained(path, c, told)]
        yield from (f"{path}: tools/stream: connection {c}: {fault}" for fault in faults)


def counts(told, heard, said):
    """The JSON counts the bytes that are printed, and no head overlaps another."""
    if (told["heard"]["bytes"], told["said"]["bytes"]) != (len(heard), len(said)):
        yield "the bytes are not as many as it counts"
    if told["heard"]["bytes"] - told["heard"]["left"] < sum(it["bytes"] or 0 for it in told["requests"]):
        yield "requests have more bytes than were heard"


def by_the_lines(lines, told, heard, said, first):
    """What is told of a connection of a run is what its lines say, found without the ways of the tool."""
    if not lines.is_touched and not lines.wrote.startswith(heard):
        yield "heard is what an untouched client did not write"
    if lines.heard() != len(heard) + (told["heard"]["end"] is not None):
        yield f"{lines.heard()} bytes were acknowledged, the FIN with them"
    if lines.sent_bytes(first) != len(said):
        yield f"{lines.sent_bytes(first)} bytes were sent"
    for data in lines.offers:
        if not heard[:number_at(data, 18)].endswith(data[45:]):
            yield "an Offer has other unread bytes"
    if not said.startswith(lines.accepted):
        yield "said is what its client did not accept"
    if not lines.is_touched and told["acknowledged"]["bytes"] > len(lines.accepted):
        yield "more is acknowledged than its client accepted"
    served = [tuple(map(int, words[3:6])) for words in lines.served]
    answered = [it for it in told["requests"] if it["code"]]
    if [(it["request"], it["code"], it["length"]) for it in answered] != served:
        yield f"it has responses other than {served}"
    begin = 0
    for it in answered:
        head = said[begin:begin + 13]
        if not (b"HTTP/1.1 %d " % it["code"]).startswith(head) or bool(head) != bool(it["said"]):
            yield f"the response to request {it['request']} begins otherwise: {head}"
        begin += it["length"]


def texts(path, c, told):
    """The text has the numbers of the JSON."""
    text = fine(["tools/stream", path, str(c)])
    for name in ("heard", "said", "acknowledged"):
        end = told[name]["end"]
        found = re.search(rf"^{name}: ([0-9,]+) bytes?.*?(?:, and the end in step ([0-9.]+))?$", text, re.M)
        if not found or (int(found[1].replace(",", "")), found[2]) != (told[name]["bytes"], end):
            yield f"the text has another number, or another end, of {name}"
    for it in told["requests"]:
        names = ("request", "heard", "code", "length", "said", "acknowledged")
        row = [f"{it[name]:,}" if isinstance(it[name], int) else it[name] or "-" for name in names]
        if not re.search("^ *" + " +".join(map(re.escape, row)) + "  ", text, re.M):
            yield f"the text has another row of request {it['request']}"


def explained(path, c, told):
    """The sentences of tools/explain hear each byte once, and the end."""
    text = fine(["tools/explain", path, str(c)])
    parts = re.findall(r", and hears (?:([0-9,]+) bytes? of it)?(?: and )?(the end)?", text)
    if sum(int(size.replace(",", "")) for size, _ in parts if size) != told["heard"]["bytes"]:
        yield "tools/explain hears other bytes"
    if sum(bool(end) for _, end in parts) != (told["heard"]["end"] is not None):
        yield "tools/explain hears another end"


# ---- reports by hand

class Made:
    """A report of one connection. Places are counted from the SYN of their side: the client's of the schedule has 1000, the
    cluster's 5000."""

    def __init__(self, first=1000):
        self.text, self.first, self.events, self.packets = HEADING + OPENED, first, 1, 0

    def line(self, text):
        self.text += text + "\n"
        return self

    def event(self, text):
        self.events += 1
        return self.line(f"event {self.events} {text}")

    def sent(self, source, target, data):
        self.packets += 1
        return self.line(f"sent {self.packets} {source} {target} {data.hex()}")

    def comes(self, place, data=b"", flags="ACK", ack=1):
        """A segment that is injected in the client's name, and comes to the front end in the next step."""
        bytes_ = segment(True, self.first + place, (5000 + ack) * ("ACK" in flags), flags, data)
        self.event(f"inject 1 {bytes_.hex()}").line("injected 1").sent("c1", "front", bytes_)
        return self.event(f"deliver {self.packets}").line(f"got {self.packets}")

    def says(self, place, data=b"", flags="ACK", ack=1, window=100):
        return self.sent("front", "c1", segment(False, 5000 + place, self.first + ack, flags, data, window))

    def begun(self):
        """A connection that stands: its SYN came, and the cluster's."""
        return self.comes(0, flags="SYN").line("took front 1 1").says(0, flags="SYN ACK")

    def stream(self, *words):
        return raw(new_file(self.text), "1", *words)

    def told(self):
        return json.loads(self.stream("--json"))


def segment(from_client, seq, ack, flags, data, window=65535):
    """The bytes of a segment of client 1, or to it, with its checksum."""
    ends, ports = [reports.client_address(1), reports.CLUSTER], [b"\x9c\x40", b"\0\x50"]
    if not from_client:
        ends, ports = ends[::-1], ports[::-1]
    bits = sum(1 << bit for bit, name in enumerate(reports.FLAGS) if name in flags.split())
    numbers = b"".join((it % 2**32).to_bytes(4, "big") for it in (seq, ack))
    head = b"".join(ports) + numbers + bytes([0x50, bits]) + window.to_bytes(2, "big")
    size = 20 + len(data)
    total = reports.checksum(b"".join(ends) + bytes([0, 6]) + size.to_bytes(2, "big") + head + bytes(4) + data)
    return head + total.to_bytes(2, "big") + bytes(2) + data


def made(case):
    """This report has these bytes heard and said, and in its JSON, and in its text, these."""
    name, report, heard, said, parts, text = case
    if (report.stream("--heard"), report.stream("--said")) != (heard, said):
        yield f"tools/stream, {name}: {report.stream('--heard')} was heard, {report.stream('--said')} said"
    told = report.told()
    for path, wanted in parts.items():
        one, two = path.split()
        if told[one][two] != wanted:
            yield f"tools/stream, {name}: {path}: {told[one][two]}"
    if text not in report.stream().decode():
        yield f"tools/stream, {name}: {report.stream().decode()}"


def another_speaks():
    """The schedule's client begins at 1000 and writes a request; one who begins at 7000 comes first, with another."""
    own = segment(True, 1001, 5001, "ACK", b"GET /a HTTP/1.1\r\n\r\n")
    other = Made(7000).begun().comes(1, b"GET /b HTTP/1.1\r\n\r\n").says(1, ack=20)
    other.event("write 1 " + own[20:].hex()).line("wrote 1 " + own[20:].hex()).sent("c1", "front", own)
    return other.event(f"deliver {other.packets}").line(f"got {other.packets}").says(1, ack=20)


def holes():
    """Bytes 11 to 15 come first; then 1 to 10, twice; then 6 to 20, of which 6 to 10 are other ones; then the FIN."""
    report = Made().begun().comes(11, b"zzzzz").says(1, ack=1).comes(1, b"abcdefghij").says(1, ack=11).comes(1, b"abcdefghij").says(1, ack=11)
    return report.comes(6, b"-----klmnopqrst").says(1, ack=21).comes(21, flags="ACK FIN").says(1, ack=22).comes(21, b"more").says(1, ack=22)


def handed_over(*forwards):
    """The front end's Offer counts what came in its step. Then Forwards come to the node, whose epoch is 2: of each its epoch, its
    bytes, which stand behind those of the Offer, and what the node acknowledges then."""
    offer = bytes.fromhex("01010001000200000028") + b"".join(it.to_bytes(4, "big") for it in (1000, 5000, 5)) + bytes([0])
    offer += bytes.fromhex("0000000100640000000000000000" "05b4" "00000000" "0005") + b"abcde"
    report = Made().begun().comes(1, b"abcde").line("gave front 1 1").sent("front", "n1", offer)
    report.event(f"deliver {report.packets}").line(f"got {report.packets}").line("took n1 1 2")
    for epoch, data, ack in forwards:
        part = segment(True, 1006, 5001, "ACK", data)
        report.event("clock 0").line("clock 0").sent("front", "n1", bytes([1, 4, 0, 1, 0, epoch]) + len(part).to_bytes(4, "big") + part)
        report.event(f"deliver {report.packets}").line(f"got {report.packets}")
        report.sent("n1", "c1", segment(False, 5001, 1000 + ack, "ACK", b"", 100))
    return report


def two_requests():
    """The first comes in two parts; its response is acknowledged but for a byte, and then whole."""
    request, response = b"GET / HTTP/1.1\r\n\r\n", b"HTTP/1.1 200 OK\r\n\r\n"
    report = Made().begun().comes(1, request[:17]).says(1, ack=18).comes(18, request[17:])
    report.line("served front 1 1 200 19 own").says(1, response, ack=19).comes(19, request, ack=19)
    report.line("served front 1 2 200 19 own").says(20, response, ack=37)
    return report.comes(37, ack=20).comes(37, ack=39)


def answered():
    """A request and its response, of which eight bytes are acknowledged."""
    report = Made().begun().comes(1, b"GET / HTTP/1.1\r\n\r\n").line("served front 1 1 200 19 own")
    return report.says(1, b"HTTP/1.1 200 OK\r\n\r\n", ack=19).comes(19, ack=9)


def counts_for_nothing(case):
    """What comes then acknowledges no byte, and ends the connection where this is told."""
    name, report, reset = case
    told = report.told()
    if (told["acknowledged"]["bytes"], told["said"]["bytes"], told["heard"]["bytes"], told["reset"]) != (8, 19, 18, reset):
        yield f"tools/stream, {name}: {told}"


NOTHING = [
    ("a part is acknowledged", answered(), None),
    ("an ACK of what was not said", answered().comes(19, ack=30), None),
    ("an ACK outside of the window", answered().comes(119, ack=20), None),
    ("an ACK of a SYN", answered().comes(19, flags="SYN ACK", ack=20), None),
    ("a number without its flag", answered().comes(19, flags="PSH", ack=20), None),
    ("a RST that is not next", answered().comes(20, flags="RST"), None),
    ("behind a RST", answered().comes(19, flags="RST").comes(19, ack=20), {"by": "the client", "step": "9"}),
    ("behind a reset", answered().line("reset front 1 99").comes(19, ack=20), {"by": "the stream limit", "step": "7"}),
    ("while nobody has it", answered().line("gave front 1 1").comes(19, ack=20), None),
    ("once the front end has it back", answered().line("gave front 1 1").line("took front 1 3").comes(19, ack=20), None),
]


def by_hand():
    """Reports with what is heard, what is said, and what the JSON and the text have."""
    request, response = b"GET / HTTP/1.1\r\n\r\n", b"HTTP/1.1 200 OK\r\n\r\n"
    return [
        ("another speaks first", another_speaks(), b"GET /b HTTP/1.1\r\n\r\n", b"", {"heard first": 7000, "wrote alike": 5, "heard step": "3"},
         "wrote: 19 bytes by the client of the schedule, and byte 6 was heard otherwise; 2 packets injected"),
        ("holes, repeats and overlaps", holes(), b"abcdefghijklmnopqrst", b"", {"heard end": "13", "heard left": 20},
         "heard: 20 bytes, 20 of them behind the last request, and the end in step 13"),
        ("a hand-over", handed_over((3, b"-----", 6), (2, b"fghij", 11), (1, b"-----", 11)), b"abcdefghij", b"", {"heard end": None}, "heard: 10 bytes"),
        ("two requests", two_requests(), request * 2, response * 2, {},
         "      1         7   200     19        7               11  GET / HTTP/1.1\n"
         "      2         9   200     19        9               13  GET / HTTP/1.1\n"),
        ("no plain SYN", Made().comes(0, flags="SYN ACK").comes(0, flags="SYN FIN").comes(0, flags="SYN RST"), b"", b"", {"heard first": None},
         "connection 1: no SYN of the client was heard\n"),
        ("as much as fits", Made().begun().comes(1, b"abcdefghij").says(1, ack=5, window=0).comes(5, b"EFGHIJ").says(1, ack=11),
         b"abcdEFGHIJ", b"", {"heard bytes": 10}, "heard: 10 bytes"),
        ("what came ahead is not kept", Made().begun().comes(3, b"CD").says(1).comes(1, b"ab").says(1, ack=3).comes(3, b"cd").says(1, ack=5),
         b"abcd", b"", {"heard bytes": 4}, "heard: 4 bytes"),
        ("what came ahead is kept, by another system", Made().begun().comes(5, b"ef").says(1).comes(1, b"ab").says(1, ack=3).comes(3, b"cd").says(1, ack=7),
         b"abcdef", b"", {"heard bytes": 6}, "heard: 6 bytes"),
        ("a window that grew, and was not told", Made().begun().says(1, b"xy").comes(1, b"ab").says(3, ack=3, window=2).comes(2, b"bcdef", ack=3)
         .says(3, ack=7), b"abcdef", b"xy", {"acknowledged bytes": 2}, "acknowledged: 2 bytes"),
        ("an ACK at a window of 0", Made().begun().says(1, b"xy", window=0).comes(1, b"a", ack=2).says(3, window=0).comes(2, ack=3), b"", b"xy",
         {"acknowledged bytes": 1}, "acknowledged: 1 byte\n"),
        ("a segment that begins before the SYN", Made(0).begun().comes(-1, b"--a").says(1, ack=2).comes(2, b"b").says(1, ack=3),
         b"ab", b"", {"heard first": 0}, "the client begins at 0, in step 3"),
        ("a SYN with bytes", Made().comes(0, b"ab", "SYN").line("took front 1 1").says(0, flags="SYN ACK"), b"", b"", {"heard bytes": 0}, "heard: 0 bytes"),
        ("a byte is said otherwise", Made().begun().says(1, b"abc").says(2, b"BCd"), b"", b"abcd", {"said bytes": 4},
         "line 12: byte 2 of the cluster is said again, and otherwise"),
        ("bytes that a terminal shows", Made().begun().comes(1, b"G\x1b\xff" + b"a" * 80 + b"\r\n\r\n").says(1, ack=88),
         b"G\x1b\xff" + b"a" * 80 + b"\r\n\r\n", b"", {"heard left": 0}, "  G\\x1b\\xff" + "a" * 48 + "...\n"),
    ]


def impossible(case):
    """A stream that cannot be is refused with its line."""
    report, line, fault = case
    path = new_file(report.text)
    status, out, errors = call_raw(["tools/stream", path, "1"])
    if (status, out, errors) != (1, b"", f"{path}: line {line}: {fault}\n"):
        yield f"tools/stream, {fault}: {status} {out} {errors}"
    if len(fine(["tools/explain", path]).splitlines()) != report.text.count("\n") - 1:
        yield f"tools/explain, {fault}: not a sentence for each line"


def cannot_be():
    """Reports of no program, with the line and what it is told of."""
    ended = Made().begun().comes(1, flags="ACK FIN").says(1, ack=2)
    unheard = "this acknowledges all before place {} of the client, and no segment brought place {}"
    return [
        (Made().begun().comes(1, b"ab").says(1, ack=5), 16, unheard.format(5, 3)),
        (handed_over((3, b"fghij", 11)), 26, unheard.format(11, 6)),
        (Made().begun().comes(1, b"ab", "SYN ACK").says(1, ack=3), 16, unheard.format(3, 1)),
        (Made().begun().comes(1, b"ab", "PSH").says(1, ack=3), 16, unheard.format(3, 1)),
        (ended.says(1, ack=3), 17, "this acknowledges more than the FIN of the client"),
        (Made().says(1), 4, "this acknowledges a client of whom no SYN came"),
        (Made().begun().says(1, b"ab").says(4, b"d"), 12, "the cluster says place 4, and all that it said is before place 3"),
        (Made().begun().says(-3, b"abc"), 11, "the cluster says place -3, and all that it said is before place 1"),
        (Made().begun().says(1, flags="ACK FIN").says(2, b"a"), 12, "the cluster says more than its FIN"),
        (Made().begun().says(9, flags="SYN ACK"), 11, "the cluster's SYN has the number 5009, and had 5000"),
    ]


# ---- what is told by other means

HEARS = [", and hears none of it, since 10 bytes before it did not come.", ", and hears 10 bytes of it.", ", which it heard before.",
         ", and hears 10 bytes of it; 5 bytes it heard before.", ", and hears the end.", ", and hears none of it."]
RESETS = [("limit-at-a-node", 2, {"by": "the stream limit", "step": "14"}), ("abort-before-it-is-established", 1, {"by": "the client", "step": "6"}),
        ("injected-behind-the-end", 1, None), ("injected-reset", 1, {"by": "the client", "step": "10"})]
LONGEST = b"a" * 8188 + b"\r\n\r\n"
HEADS = [(b"\r\na\r\n\r\n\r\nb", [(2, 7)], 1), (LONGEST + b"b\r\n\r\n", [(0, 8192), (8192, 8197)], 0), (b"a" * 8191, [], 8191),
         (b"a" + LONGEST + b"b\r\n\r\n", [(0, 8192)], 0), (b"\r\n" + b"a" * 8192, [(2, 8194)], 0), (b"a\r\n\r\n\r", [(0, 5)], 1)]


def sentences(wanted):
    """What tools/explain says of the segments of a report with holes, repeats and overlaps."""
    text = fine(["tools/explain", new_file(holes().text)])
    found = [line[line.index("), ") + 1:] for line in text.splitlines() if "The front end gets" in line and "), " in line]
    if found != [*wanted]:
        yield f"tools/explain: {found}"


def early(case):
    """Who reset a connection of rows/, and when; a RST behind the end of both sides resets nothing."""
    name, connection, wanted = case
    path = f"rows/{name}.report"
    reset = json.loads(raw(path, str(connection), "--json"))["reset"]
    line = f"reset by {wanted['by']} in step {wanted['step']}\n" if wanted else ""
    if reset != wanted or line not in fine(["tools/stream", path, str(connection)]):
        yield f"tools/stream: {name}: {reset}"


def cut(case):
    """Where heads begin and end, and how many bytes are left."""
    data, *wanted = case
    if list(heads(data)) != wanted:
        yield f"tools/streams.py: heads of {data[:20]}, {len(data)} bytes: {heads(data)}"


def documented(page):
    """The page names each part of the JSON."""
    told = json.loads(raw("rows/limit-at-a-node.report", "2", "--json"))
    parts = [told, told["requests"][0], *(part for part in told.values() if isinstance(part, dict))]
    missing = {name for part in parts for name in part if f"`{name}`" not in content(page)}
    if missing:
        yield f"{page}: {sorted(missing)} of tools/stream are not named"


def tests(paths):
    """Each test with what it is given."""
    yield sentences, HEARS
    yield documented, "docs/REPORTS-FOR-PROGRAMS.md"
    yield from ((early, it) for it in RESETS)
    yield from ((cut, it) for it in HEADS)
    yield from ((streamed, path) for path in paths)
    yield from ((made, it) for it in by_hand())
    yield from ((counts_for_nothing, it) for it in NOTHING)
    yield from ((impossible, it) for it in cannot_be())
