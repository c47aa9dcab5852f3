"""The program held by two pipes: one line is told, its records are read, and the next line may be chosen by them.

    with Held(program) as held:
        held.begin(["lard 1", "nodes 3", "go"])
        held.tell("open 1 1000 5000 65535 1460")    # ["event 1 open 1 1000 5000 65535 1460", "opened 1 ..", "sent 1 ..", ..]
        held.ahead.packets                          # {1: Packet(..)}, what is on the way

`held.lines` are the lines so far and `held.text()` is their report, as `lardsim replay` prints it. `held.ahead` is what the
report says is still to come: packets on the way, timers that run, jobs that wait.

Nothing in a report says that a line's records are over. So behind each line the program is told `clock 0`, a line that changes
nothing, and what comes before the record of that is the answer. These marks are in no schedule that is written.
"""

import collections
import os
import re
import subprocess
import sys

TOP = os.path.dirname(os.path.dirname(os.path.realpath(__file__)))
PROGRAM = os.path.join(TOP, "crates", "lardsim", "out", "lardsim")
MARK = "clock 0"

Packet = collections.namedtuple("Packet", "number source target event place")  # which event sent it, as the how manieth
Job = collections.namedtuple("Job", "event place")  # which event queued it, as the how manieth of its jobs


class Ended(Exception):
    """The program has ended: its status, and what it says of it. line: the line of the schedule that it names, counted without
    marks, or None. is_at_mark: it named a mark, which a limit can refuse. records: those that came of the last line."""

    def __init__(self, status, why, line=None, is_at_mark=False, records=()):
        super().__init__()
        self.status, self.why, self.line, self.is_at_mark, self.records = status, why, line, is_at_mark, list(records)

    def said(self):
        """What it printed to standard error, with the line counted without marks."""
        return (f"line {self.line}: " if self.line else "") + self.why

    def __str__(self):
        return f"the program ended with status {self.status}" + (f": {self.said()}" if self.why else "")


def built():
    """The program of this repository. It is proved and built first, where it is missing or older than the sources."""
    if subprocess.run([os.path.join(TOP, "tools", "build")], check=False).returncode:
        sys.exit("the program cannot be built")
    return PROGRAM


def bytes_of(lines):
    """A schedule of these lines, which were read byte by byte."""
    return "".join(line + "\n" for line in lines).encode("latin-1")


def replay(program, schedule):
    """A whole schedule, given as bytes, is replayed at once: what subprocess.run gives, with all that was printed."""
    return subprocess.run([program, "replay"], input=schedule, capture_output=True, check=False)


class Program:
    """A program that replays. lines: for each line that it was told its number in the schedule, or None for a mark."""

    def __init__(self, path, encoding):
        pipe = subprocess.PIPE
        # in a session of its own, since an interrupt of the tool is not for it
        self.process = subprocess.Popen([path, "replay"], stdin=pipe, stdout=pipe, stderr=pipe, start_new_session=True)
        self.encoding = encoding
        self.lines, self.count, self.events = [], 0, 0

    def tell(self, line):
        """A line that has no answer: one before `go`."""
        self.count += 1
        self.lines.append(self.count)
        self.write(line + "\n")

    def ask(self, line):
        """A line, its records, and those of the mark behind it. Ended is raised where the program ends."""
        self.count += 1
        self.lines += [self.count, None]
        self.write(f"{line}\n{MARK}\n")
        self.events += 1 if line == "go" else 2
        records = []
        while True:
            record = self.record(records)
            if record.startswith(f"event {self.events} "):
                return records, [record, self.record(records)]
            records.append(record)

    def record(self, before):
        record = self.process.stdout.readline().decode("latin-1")
        if not record.endswith("\n"):
            raise self.end(before)
        return record[:-1]

    def write(self, text):
        try:
            self.process.stdin.write(text.encode(self.encoding))
            self.process.stdin.flush()
        except BrokenPipeError:
            pass  # it has ended, and the answer will tell

    def end(self, records=()):
        """Its input ends. How it ended."""
        try:
            self.process.stdin.close()
        except BrokenPipeError:
            pass
        records = [*records, *self.process.stdout.read().decode("latin-1").splitlines()]
        said = self.process.stderr.read().decode("latin-1").strip()
        self.process.stdout.close()
        self.process.stderr.close()
        return self.ended(self.process.wait(), said, records)

    def ended(self, status, said, records):
        """The line that it names is one of the schedule, a mark, or the one behind the last, where the input ended too early."""
        named = re.fullmatch(r"line ([0-9]+): (.*)", said)
        if not named:
            return Ended(status, said, None, False, records)
        line = [*self.lines, self.count + 1][int(named[1]) - 1]
        return Ended(status, named[2], line, line is None, records)


class Ahead:
    """What a report leaves to come. Its records are noted one after the other."""

    def __init__(self):
        self.packets = {}  # each packet that was neither got nor lost, by its number
        self.sent = {}     # each packet, by its number
        self.timers = {}   # (place, connection): the kinds of timer that run there
        self.jobs = {}     # of each node, as n1: its jobs, in the order in which they were queued
        self.event = 0     # the event whose records are noted
        self.sends = self.queues = self.job = 0

    def begin(self, event):
        """The records of this event follow."""
        self.event, self.sends, self.queues = event, 0, 0

    def note(self, record):
        words = record.split(" ")
        rule = getattr(self, "on_" + words[0], None)
        if rule:
            rule(words[1:])

    def on_event(self, words):
        self.on_inner(words[1:])

    def on_inner(self, words):
        if words[0] == "disk":
            self.job = int(words[2]) - 1

    def on_sent(self, words):
        number = int(words[0])
        packet = Packet(number, words[1], words[2], self.event, self.sends)
        self.packets[number] = self.sent[number] = packet
        self.sends += 1

    def on_got(self, words):
        self.packets.pop(int(words[0]), None)

    on_lost = on_got

    def on_armed(self, words):
        self.timers.setdefault((words[0], int(words[1])), set()).add(words[2])

    def on_cleared(self, words):
        at = words[0], int(words[1])
        kinds = self.timers.get(at, set())
        kinds.discard(words[2])
        if not kinds:
            self.timers.pop(at, None)

    def on_queued(self, words):
        self.jobs.setdefault(words[0], []).append(Job(self.event, self.queues))
        self.queues += 1

    def on_read(self, words):
        self.jobs[words[0]].pop(self.job)


class Held:
    """The program, held, and what its report leaves to come."""

    def __init__(self, program):
        self.program = Program(program, "latin-1")
        self.lines, self.records = [], []
        self.ahead = Ahead()
        self.events = 0

    def __enter__(self):
        return self

    def __exit__(self, *_):
        self.program.process.kill()
        self.program.process.wait()

    def begin(self, head):
        """The first lines, up to and with `go`, are told."""
        self.lines = list(head)
        for line in head[:-1]:
            self.program.tell(line)
        return self.answer(head[-1])

    def tell(self, line):
        """An event is told. Its records."""
        self.lines.append(line)
        self.events += 1
        self.ahead.begin(self.events)
        return self.answer(line)

    def answer(self, line):
        """The records of a line, with its event's number as it is without marks."""
        records, _ = self.program.ask(line)
        if self.events:
            records[0] = records[0].replace(f"event {self.program.events - 1} ", f"event {self.events} ", 1)
        for record in records:
            self.ahead.note(record)
        self.records += records
        return records

    def text(self):
        return "".join(record + "\n" for record in self.records)

    def end(self):
        """Its input ends, and so does it."""
        ended = self.program.end()
        if ended.status:
            raise ended
