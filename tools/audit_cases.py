"""Wrong reports, for tools/check-audit: each stored report with one line changed, left out, repeated or put in, and the line that an
audit has to refuse. Which line it is, and which rule it breaks, is said here beside each change; no program is asked for it.

cases() gives (what is wrong, text, what has to be said); with True all places of each mistake.
"""

import glob
import os

FOLDER = os.path.join(os.path.dirname(os.path.dirname(os.path.abspath(__file__))), "rows")
SYNTAX = "not a line of the schedule"


class Report:
    """The lines of a stored report, with what can be said before one of them."""

    def __init__(self, path):
        self.name = os.path.basename(path)[:-len(".report")]
        with open(path, encoding="latin-1") as file:
            self.lines = file.read().split("\n")[:-1]

    def where(self, *words):
        """The places of the lines that begin so; `*` is any word."""
        for at, line in enumerate(self.lines):
            begins = line.split(" ")[:len(words)]
            if len(begins) == len(words) and all(word in ("*", got) for word, got in zip(words, begins)):
                yield at

    def changed(self, at, word, to):
        """With another word in a line."""
        words = self.lines[at].split(" ")
        words[word] = str(to)
        return self.with_line(at, " ".join(words))

    def with_line(self, at, line):
        return [*self.lines[:at], line, *self.lines[at + 1:]]

    def before(self, at, line):
        return [*self.lines[:at], line, *self.lines[at:]]

    def without(self, at):
        return [*self.lines[:at], *self.lines[at + 1:]]


def word(report, at, number):
    return report.lines[at].split(" ")[number]


def network(report):
    """Numbers of packets, and packets that may come or be lost."""
    for at in report.where("sent"):
        k = int(word(report, at, 1))
        yield "a packet's number is left out", report.changed(at, 1, k + 1), at
        yield "a packet's number comes again", report.changed(at, 1, k - 1), at
        later = [one for one in report.where("sent") if one > at]
        between = [one for kind in ("got", "lost") for one in report.where(kind, str(k)) if not later or one < later[0]]
        gone = [*between, *later][:1]
        if gone:
            yield "a packet that was not sent", report.without(at), gone[0] - 1
    for kind in "got", "lost":
        for at in report.where(kind):
            sent = sum(one < at for one in report.where("sent"))
            yield f"{kind} of a packet to come", report.changed(at, 1, sent + 1), at
            yield f"{kind} of packet 0", report.changed(at, 1, 0), at
    for at in report.where("lost"):
        yield "lost twice", report.before(at + 1, report.lines[at]), at + 1
        yield "got behind its loss", report.before(at + 1, "got " + word(report, at, 1)), at + 1


def owner(report):
    """Who owns a connection, and in which epoch."""
    for at in report.where("took"):
        place, c, epoch = report.lines[at].split(" ")[1:]
        yield "taken in epoch 0", report.changed(at, 3, 0), at
        yield "taken twice", report.before(at + 1, f"took {place} {c} {int(epoch) + 1}"), at + 1
        if epoch != "1":
            yield "taken in the epoch before", report.changed(at, 3, int(epoch) - 1), at
        yield "given in another epoch", report.before(at + 1, f"gave {place} {c} {int(epoch) + 1}"), at + 1
        yield "given by another place", report.before(at + 1, f"gave n64 {c} {epoch}"), at + 1
        yield "given before it is taken", report.before(at, f"gave {place} {c} {epoch}"), at
    for at in report.where("gave"):
        yield "given twice", report.before(at + 1, report.lines[at]), at + 1
        place, c = report.lines[at].split(" ")[1:3]
        takes = [one for one in report.where("took", place, c) if one < at]
        sends = [one for one in report.where("sent", "*", place, f"c{c}") if takes and takes[-1] < one < at]
        if takes and not sends and sum(1 for _ in report.where("took", "*", c)) > 0:
            yield "given by a place that did not take it", report.without(takes[-1]), at - 1


def sender(report):
    """Who sends to a client."""
    for at in report.where("sent"):
        _, k, source, target, data = report.lines[at].split(" ")
        if target[0] == "c" and source[0] != "c":
            other = "front" if source[0] == "n" else "n1"
            yield f"{other} sends in the place of the owner", report.with_line(at, f"sent {k} {other} {target} {data}"), at
    for at in report.where("took"):
        place, c = report.lines[at].split(" ")[1:3]
        uses = [*report.where("sent", "*", place, f"c{c}"), *report.where("gave", place, c)]
        uses = sorted(one for one in uses if one > at)
        if uses and report.lines[uses[0]].startswith("sent"):
            yield "sent by a place that did not take it", report.without(at), uses[0] - 1


def admission(report):
    """Who is in, who waits, and what stands behind an admission."""
    for at in report.where("admitted"):
        c = word(report, at, 1)
        yield "admitted twice", report.before(at + 1, report.lines[at]), at + 1
        yield "another's assignment behind an admission", report.changed(at + 1, 1, int(c) % 16384 + 1), at + 1
        yield "no assignment behind an admission", report.without(at + 1), at + 1
        yield "an assignment without an admission", report.without(at), at
        yield "admitted again behind its assignment", report.before(at + 2, report.lines[at]), at + 2
        yield "released before its assignment", report.before(at + 1, f"released {c}"), at + 1
        yield "released before it is admitted", report.before(at, f"released {c}"), at
        yield "assigned twice", report.before(at + 2, report.lines[at + 1]), at + 2
        yield "a node is closed behind an admission", report.before(at + 1, "closed n1"), at + 1
        if report.lines[0].split(" ")[3] != "1":
            yield "one waits where there is room", report.before(at, f"waits {c}"), at
    for at in report.where("released"):
        yield "released twice", report.before(at + 1, report.lines[at]), at + 1
    for at in report.where("waits"):
        yield "one is let in where there is no room", report.with_line(at, "admitted " + word(report, at, 1)), at


def choice(report):
    """Which node, and what comes of its server set."""
    for at in report.where("assigned"):
        words = report.lines[at].split(" ")
        kind = words[3]
        yield f"{kind}: a node that there is not", report.changed(at, 5, 64), at
        yield f"{kind}: another node", report.changed(at, 5, 3 - int(words[5]) if words[5] in "12" else 1), at
        yield f"{kind}: another node joins", report.changed(at, 6, "63" if words[6] == "-" else "-"), at
        if kind == "first":
            yield "first: a node leaves", report.changed(at, 7, "1" if words[7] == "-" else "-"), at
        else:
            yield "later: a batch of none", report.changed(at, 7, 0), at
            yield "later: a batch of nine", report.changed(at, 7, 9), at
            yield "later: of a connection that is not in", report.changed(at, 1, 16384), at
    yield from closings(report)


def closings(report):
    """Which nodes are closed, and that none of these is chosen."""
    nodes = {f"n{node}" for node in range(1, int(report.lines[0].split(" ")[3]) + 1)}
    assigned, closed = list(report.where("assigned")), list(report.where("closed"))
    for count, at in enumerate(closed, 1):
        still = nodes - {word(report, one, 1) for one in closed[:count]}
        behind = [one for one in assigned if one > at]
        is_first = behind and word(report, behind[0], 3) == "first"
        yield "closed twice", report.before(at + 1, report.lines[at]), at + 1
        if len(nodes) < 64:
            yield "a node that there is not is closed", report.changed(at, 1, f"n{len(nodes) + 1}"), at
        if is_first:
            yield "a closed node is chosen", report.changed(behind[0], 5, word(report, at, 1)[1:]), behind[0]
        if len(still) == 1:
            last = still.pop()
            yield "the last open node is closed", report.before(at + 1, f"closed {last}"), at + 1
            if is_first and len(nodes) == 2:
                yield "the other node is closed", report.changed(at, 1, last), behind[0]
    for at in report.where("assigned", "*", "*", "first"):
        if len(nodes) > 1 and not any(one < at for one in closed):
            yield "a node is closed before it is chosen", report.before(at - 1, "closed n" + word(report, at, 5)), at + 1


def cache(report):
    """What is in a cache, which jobs wait, and which is read."""
    for at in report.where("hit"):
        yield "a hit of what is not there", report.changed(at, 2, "/nowhere"), at
        yield "a hit at another node", report.changed(at, 1, "n64"), at
        node, path = report.lines[at].split(" ")[1:]
        yield "queued though it is there", report.before(at, f"queued {node} {node} 1 1 {path}"), at
    for at in report.where("queued"):
        yield "a job for no file", report.changed(at, 5, "/nowhere"), at
        node, path = word(report, at, 1), word(report, at, 5)
        yield "a hit of what is to be read", report.with_line(at, f"hit {node} {path}"), at
    for at in report.where("read"):
        for number, name, to in ((1, "at another node", "n64"), (2, "for another node", "n64"), (3, "for another connection", 16384),
                                 (4, "for another request", 4294967295), (5, "of another path", "/nowhere")):
            yield f"read {name}", report.changed(at, number, to), at
        yield "read twice", report.before(at + 1, report.lines[at]), at + 1
        words = report.lines[at - 1].split(" ")
        yield "read without its event", report.without(at - 1), at - 1
        yield "read of a job that the event does not name", report.with_line(at - 1, " ".join([*words[:-1], "4294967295"])), at


def clock(report):
    """The time."""
    for at in report.where("clock"):
        time = int(word(report, at, 1))
        if time:
            yield "the time goes back", report.before(at + 1, f"clock {time - 1}"), at + 1
    if not list(report.where("clock")):
        end = len(report.lines)
        yield "the time goes back at the end", [*report.lines, "clock 7", "clock 6"], end + 1


RULES = network, owner, sender, admission, choice, cache, clock


def broken(all_of_them=False):
    """Wrong reports that break a rule: of each report and each mistake the first and the last, or all."""
    for path in sorted(glob.glob(f"{FOLDER}/*.report")):
        report = Report(path)
        if not report.lines:
            continue
        for rule in RULES:
            found = {}
            for what, lines, at in rule(report):
                found.setdefault(what, []).append((lines, at))
            for what, ones in found.items():
                for lines, at in ones if all_of_them else ones[:1] + ones[1:][-1:]:
                    yield f"{report.name}: {rule.__name__}: {what}", "\n".join(lines) + "\n", f"line {at + 1}: breaks {rule.__name__}"


HEADING = "report 1 nodes 2 low 25 high 65 age 20000 idle 25 over 130 miss 50 cache 1048576 stream 1073741824"


def others():
    """Texts that are no report, and those whose heading or files may not be."""
    for what, text, line in (
        ("nothing", "", 1), ("a line feed", "\n", 1), ("no heading", "event 1 clock 5\n", 1), ("a heading without its end", HEADING, 1),
        ("two headings", f"{HEADING}\n{HEADING}\n", 2), ("a NUL byte", f"{HEADING}\n\0\n", 2), ("NUL bytes alone", "\0" * 70000, 1),
        ("a last line without its end", f"{HEADING}\nclock 5", 2), ("an empty line", f"{HEADING}\n\nclock 5\n", 2),
        ("a carriage return", f"{HEADING}\r\n", 1), ("two spaces", f"{HEADING}\nclock  5\n", 2), ("a space at the end", f"{HEADING}\nclock 5 \n", 2),
        ("a number with a zero before it", f"{HEADING}\nclock 05\n", 2), ("a number with a sign", f"{HEADING}\nclock +5\n", 2),
        ("a number past 64 bits", f"{HEADING}\nclock 18446744073709551616\n", 2), ("a word too much", f"{HEADING}\nclock 5 6\n", 2),
        ("bytes in upper case", f"{HEADING}\nwrote 1 AB\n", 2), ("half a byte", f"{HEADING}\nwrote 1 a\n", 2), ("no bytes", f"{HEADING}\nwrote 1 \n", 2),
        ("a file behind a record", f"{HEADING}\nclock 5\nfile /a 5\n", 3), ("a file's path with a query", f"{HEADING}\nfile /a?b 5\n", 2),
        ("a file without its length", f"{HEADING}\nfile /a\n", 2), ("a file of 2^64 bytes", f"{HEADING}\nfile /a 18446744073709551616\n", 2),
        ("connection 0", f"{HEADING}\neof 0\n", 2), ("connection 16385", f"{HEADING}\neof 16385\n", 2), ("node 65", f"{HEADING}\nhit n65 /a\n", 2),
        ("an epoch past 16 bits", f"{HEADING}\ntook front 1 65536\n", 2), ("a path without its slash", f"{HEADING}\nhit n1 a\n", 2),
        ("a path that is too long", f"{HEADING}\nhit n1 /{'a' * 1024}\n", 2), ("a word that is none", f"{HEADING}\nserve front 1 1 200 5 own\n", 2),
        ("an event without its number", f"{HEADING}\nevent clock 5\n", 2), ("an event that is none", f"{HEADING}\nevent 1 wait 5\n", 2),
        ("node 0 is closed", f"{HEADING}\nclosed n0\n", 2), ("a node is closed by its number", f"{HEADING}\nclosed 1\n", 2),
        ("a drain of no node", f"{HEADING}\nevent 1 drain\n", 2),
        ("a settle of no rounds", f"{HEADING}\nevent 1 settle 0\n", 2), ("a client's timer of another", f"{HEADING}\nevent 1 timer c1 2\n", 2),
        ("a number of the heading past 64 bits", HEADING.replace("age 20000", "age 18446744073709551616") + "\n", 1),
        ("a heading's words in another order", "report 1 low 25 nodes 2" + HEADING[len("report 1 nodes 2 low 25"):] + "\n", 1),
        ("a schedule", "lard 1\ngo\n", 1),
    ):
        yield what, text, f"line {line}: {SYNTAX}"
    for what, text, said in (
        ("no nodes", HEADING.replace("nodes 2", "nodes 0"), "line 1: nodes out of range: 0"),
        ("65 nodes", HEADING.replace("nodes 2", "nodes 65"), "line 1: nodes out of range: 65"),
        ("300 nodes, and no threshold", HEADING.replace("nodes 2 low 25", "nodes 300 low 0"), "line 1: nodes out of range: 300"),
        ("a cache of no bytes", HEADING.replace("cache 1048576", "cache 0"), "line 1: cache out of range: 0"),
        ("low above high", HEADING.replace("low 25", "low 66"), "line 1: low 66 above high 65"),
        ("no room", HEADING.replace("nodes 2 low 25", "nodes 1 low 1"), "line 1: no connection can be admitted"),
        ("a file twice", HEADING + "\nfile /a 5\nfile /a 5", "line 3: file repeated"),
        ("a file too long", HEADING + "\nfile /a 1048577", "line 2: file too long: 1048577"),
        ("a file of nearly 2^64 bytes", HEADING + "\nfile /a 18446744073709551615", "line 2: file too long: 18446744073709551615"),
        ("too many files", HEADING + "".join(f"\nfile /{i} 1" for i in range(65537)), "line 65538: too many files: 65537"),
        ("files too large", HEADING + "".join(f"\nfile /{i} 1048576" for i in range(64)) + "\nfile /b 1", "line 66: files too large: 67108865"),
    ):
        yield what, text + "\n", said


FIRST, SECOND = "admitted 1\nassigned 1 1 first /a ", "admitted 2\nassigned 2 1 first /b "


def drained():
    """Nodes that are closed, in small reports of two nodes."""
    for what, records, line in (
        ("closed twice", "closed n1\nclosed n1\n", 3), ("closed by two events", "event 1 drain 1\nclosed n1\nevent 2 drain 1\nclosed n1\n", 5),
        ("a node that there is not is closed", "closed n3\n", 2), ("the last open node is closed", "closed n1\nclosed n2\n", 3),
        ("a closed node is chosen", f"closed n1\n{FIRST}1 1 -\n", 4), ("a closed node is not told", f"event 1 drain 1\n{FIRST}2 2 -\n", 4),
        ("another node is told than the event closes", f"event 1 drain 1\nclosed n2\n{FIRST}2 2 -\n", 5),
        ("a closed node is in its sets", f"{FIRST}1 1 -\nclosed n1\nadmitted 2\nassigned 2 1 first /a 1 - -\n", 6),
        ("a closed node's set is there for another", f"{FIRST}1 1 -\nclosed n1\nadmitted 2\nassigned 2 1 first /a 2 2 1\n", 6),
        ("a closed node joins by a later request", f"{FIRST}1 1 -\nclosed n1\nassigned 1 2 later /b 1 1 1 0\n", 5),
        ("a share goes to a closed node", f"{FIRST}1 1 -\n{SECOND}2 2 -\nclosed n2\nassigned 1 2 later /b 2 - 1 9\n", 7),
    ):
        yield f"drain: {what}", f"{HEADING}\n{records}", f"line {line}: breaks choice"


def sound():
    """Texts that are sound, though a reader may think otherwise."""
    for what, records in (
        ("a heading alone", ""), ("an event with any number", "event 7 clock 5\nevent 0 clock 5\n"), ("an inner settle", "inner settle 3\n"),
        ("an admission at the end", "admitted 1\n"), ("batchover of nobody", "batchover 9\n"), ("a timer of a node that there is not", "armed n60 1 tcp\n"),
        ("the same time again", "clock 5\nclock 5\n"), ("a client's packets need no owner", "sent 1 c1 front 00\n"),
        ("a message needs no owner", "sent 1 n1 n2 00\n"), ("a packet that comes twice", "sent 1 c1 front 00\ngot 1\ngot 1\n"),
        ("a node is closed without an event", "closed n2\n"), ("drains that close nobody", "event 1 drain 70\nevent 1 drain 1\n"),
        ("requests stay at a closed node", f"{FIRST}1 1 -\nclosed n1\nassigned 1 2 later /b 1 - 1 0\n{SECOND}2 2 -\n"),
        ("a node is closed before a release", f"{FIRST}1 1 -\ntook front 1 3\nclosed n1\nreleased 1\n"),
        ("a response that nobody asked for", "served front 1 1 200 5 own\n"), ("marks of a settle anywhere", "settled 4\nunsettled 3 18446744073709551615\n"),
    ):
        yield what, f"{HEADING}\n{records}", f"records {records.count(chr(10))}"
    yield "a job at a node that there is not", f"{HEADING}\nfile /a 5\nqueued n60 n60 1 1 /a\n", "records 1"
    for path in sorted(glob.glob(f"{FOLDER}/*.report")):
        report = Report(path)
        if report.lines:
            records = sum(not line.startswith(("report ", "file ")) for line in report.lines)
            yield f"{report.name}: as it is", "\n".join(report.lines) + "\n", f"records {records}"


def cases(all_of_them=False):
    yield from sound()
    yield from others()
    yield from drained()
    yield from broken(all_of_them)
