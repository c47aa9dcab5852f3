"""The program as tools/live holds it: it is told lines and asked for records, and neither waits. Both are kept in files, which
in the end are cut to what surely replays to the same report.
"""
import itertools
import os
import select
import signal
import subprocess
import time

STUCK = 20.0            # seconds without a word of the program, behind its last line, until it is ended
REFUSED = (2, 6)        # its statuses where it answered each line but the last, and refused that: docs/FORMATS.md


class Program:
    """The program, and the schedule and the report of its run."""

    def __init__(self, path, folder, head):
        os.makedirs(folder, exist_ok=True)
        self.schedule, self.report = [open(os.path.join(folder, name), "wb") for name in ("live.schedule", "live.report")]
        # it has a session of its own, so that a key in the terminal that ends this tool does not end it
        self.process = subprocess.Popen([path, "replay"], stdin=subprocess.PIPE, stdout=subprocess.PIPE, start_new_session=True)
        self.input, self.output = self.process.stdin.fileno(), self.process.stdout.fileno()
        os.set_blocking(self.input, False)
        self.unsent, self.begun = bytearray(), b""
        self.head = head.count(b"\n")           # lines before the first event
        self.told = self.events = 0             # lines, and those of them whose event came
        self.whole = self.last_event = 0        # where in the report its whole lines end, and where the last event begins
        self.has_ended = self.was_stuck = False
        self.status = None                      # with which it ended
        self.fault = None                       # why something could not be kept
        self.tell(head)

    # ---- lines and records

    def tell(self, text):
        self.keep(self.schedule, self.schedule.write, text)
        self.told += text.count(b"\n")
        self.unsent += text

    def send(self):
        try:
            del self.unsent[:os.write(self.input, self.unsent)]
        except BlockingIOError:
            pass
        except BrokenPipeError:
            self.unsent.clear()

    def records(self):
        """What came since, by whole lines."""
        piece = os.read(self.output, 1 << 20)
        self.has_ended = not piece
        self.keep(self.report, self.report.write, piece)
        *lines, self.begun = (self.begun + piece).split(b"\n")
        for line in lines:
            if line.startswith(b"event "):
                self.events, self.last_event = self.events + 1, self.whole
            self.whole += len(line) + 1
        return [line.decode("ascii") for line in lines]

    def unanswered(self):
        return self.told - self.head - self.events

    # ---- its end

    def end(self, hear):
        """Its input ends, and what it still writes is heard and kept. Then the files are cut to what replays."""
        until = time.monotonic() + STUCK
        while not self.has_ended:
            now = time.monotonic()
            if now > until and not self.was_stuck:
                self.was_stuck = True
                self.process.kill()
            if self.unsent:
                self.send()
            elif not self.process.stdin.closed:
                self.process.stdin.close()
            if select.select([self.output], [], [], 0.01)[0]:
                until = now + STUCK
                for record in self.records():
                    hear(record, now)
        self.status = self.process.wait()
        self.cut()
        for file in (self.schedule, self.report):
            self.keep(file, file.close)

    def ended_well(self):
        return self.status == 0 and not self.fault

    def ending(self):
        """What is to be said where it did not end well."""
        if self.was_stuck:
            yield "this tool ended the program, which said nothing for %g seconds, with %d lines to answer" % (
                STUCK, self.unanswered())
        elif self.status > 0:
            yield "the program ended with status %d" % self.status
        elif self.status < 0:
            yield "the program was ended by " + signal.Signals(-self.status).name

    # ---- what is kept

    def cut(self):
        """Where the program refused a line, that is the last of the schedule, and is refused again. Where it ended otherwise
        it is not known whether all records of the last event came, so both files end before that."""
        if self.status in REFUSED:
            self.keep(self.schedule, self.cut_schedule, self.events + 1)
        elif self.status != 0 and self.events:
            self.keep(self.report, shorten, self.report, self.last_event)
            self.keep(self.schedule, self.cut_schedule, self.events - 1)

    def cut_schedule(self, events):
        self.schedule.flush()
        with open(self.schedule.name, "rb") as file:
            shorten(self.schedule, sum(len(line) for line in itertools.islice(file, self.head + events)))

    def keep(self, file, change, *words):
        """Changes a file that is kept. The first change that fails is remembered, and ends the run."""
        try:
            change(*words)
        except OSError as error:
            self.fault = self.fault or "%s: %s" % (file.name, error.strerror)

    def kept(self):
        """What is to be said of the files."""
        if not self.events and self.status not in (0, *REFUSED):
            self.fault = self.fault or "the program answered nothing"
        if self.fault:
            return "not kept: %s; %s does not replay to %s" % (self.fault, self.schedule.name, self.report.name)
        more = ""
        if self.status in REFUSED:
            more = ", and then refuses the same line"
        elif self.status != 0:
            more = "; both end before event %d, the last that came" % self.events
        return "kept: %s, which `tools/replay %s` prints again%s" % (self.report.name, self.schedule.name, more)


def shorten(file, length):
    file.flush()
    os.truncate(file.fileno(), length)
