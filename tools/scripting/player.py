"""Plays a script: each line is put before the program as lines of a schedule, whose records say what the next line means."""

import re
import sys
import time

import held_program
import report as reports
from scripting import names
from scripting.words import Fault
from scripting.world import World

TOLD = 2.0  # seconds between two words on how far it is
SHOWN = 60  # letters of a line that the program refused


class Over(Exception):
    """The program has ended inside of a line."""


class Player:
    """One run. schedule: its lines, and owners: the line of the script that each is of. end: how the program ended, if it did.
    failed: the lines of the expectations that did not hold, and what is said of them."""

    def __init__(self, path, keeps_going=False):
        self.path, self.keeps_going = path, keeps_going
        self.program, self.world = held_program.Program(path, "utf-8"), World()
        self.schedule, self.owners, self.records = [], [], []
        self.number, self.end, self.is_end_expected, self.failed = 0, None, False, []

    # ---- the whole

    def play(self, lines):
        """All lines, and the end. What does not go on ends by Fault with its `line`."""
        told = time.monotonic() + TOLD if sys.stderr.isatty() else float("inf")
        for line in lines:
            self.number = line.number
            if not line.is_of_end:
                self.must_go_on()
            try:
                line.do(self)
            except Over:
                pass
            except Fault as fault:
                fault.line = self.number
                raise
            if time.monotonic() > told:
                told = time.monotonic() + TOLD
                print(f"script: line {line.number:,} of {lines[-1].number:,}", file=sys.stderr)
        self.finish()
        if not self.is_end_expected and self.end.status != 0:
            self.must_go_on()

    def must_go_on(self):
        """The program still runs. One that a limit ended between two lines seems to, until the next line."""
        if not self.end or self.end.is_at_mark:
            return
        line = self.end.line
        if line:
            refused = self.schedule[line - 1][:SHOWN]
            raise Fault(f"the program refused `{refused}`: {self.end.why}", line=self.owners[line - 1])
        raise Fault(f"the program ended with status {self.end.status}: {self.end.why}", line=self.number)

    def finish(self):
        """The program's input ends, where it did not. A limit that no line met has not ended it."""
        if not self.end:
            self.ended(self.program.end())
        elif self.end.is_at_mark:
            self.end = held_program.Ended(0, "")

    def ended(self, ended):
        self.records += without_numbers(ended.records)
        self.end = ended

    # ---- lines of the schedule

    def tell(self, line):
        if self.end and not self.end.is_at_mark:
            raise Over
        self.schedule.append(line)
        self.owners.append(self.number)
        if self.end:
            self.end.line, self.end.is_at_mark = len(self.schedule), False
            raise Over
        if not self.world.lines and line != "go":
            self.program.tell(line)
            return
        try:
            records, mark = self.program.ask(line)
        except held_program.Ended as ended:
            self.ended(ended)
            if not ended.is_at_mark:
                raise Over from None
            records, mark = ended.records, []
        else:
            self.records += without_numbers(records)
        if line == "go":
            self.world.take_heading(records)
        else:
            self.world.take(records)
        self.world.take_mark(mark)

    def go(self):
        self.tell("go")

    def inject(self, client, segment):
        if not self.world.is_open(client):
            raise Fault(f"c{client} has not opened, so its numbers are not known")
        self.tell(f"inject {client} {segment.bytes_for(client, self.world).hex()}")

    def handle(self, form, items):
        """Delivers or loses what each item names, by and by."""
        for name, but, again in items:
            for number in [name] if isinstance(name, int) else self.chosen(name, but, again):
                self.tell(f"{form} {number}")

    def chosen(self, name, but, again):
        found = names.choose(name, self.world, again)
        if not but:
            return found
        left_out = but.among(self.world.came if again else self.world.way, self.world)
        return [number for number in found if number not in left_out]

    def deliver_until(self, name, condition, within):
        """The oldest of these packets is delivered, again and again, until the condition holds."""
        for _ in range(within):
            came = condition.tell(self.world)
            if came is None:
                return
            found = name.among(self.world.way, self.world)
            if not found:
                raise Fault(f"`{condition.text}` does not come, and of `{name.text}` nothing is on the way any more; {came}")
            self.tell(f"deliver {found[0]}")
        came = condition.tell(self.world)
        if came is not None:
            raise Fault(f"`{condition.text}` does not come by {reports.count(within, 'delivery').replace('ys', 'ies')}; {came}")

    def disk(self, node, which, path, client):
        """A node's disk completes the jobs that are meant, in the order of its queue."""
        jobs = self.world.jobs[node]
        found = [at for at, job in enumerate(jobs) if path in (None, job.path) and client in (None, job.connection)]
        meant = names.pick(which, found)
        if not meant:
            wanted = (f" for {path}" if path else "") + (f" for c{client}" if client else "")
            queued = ", ".join(f"{job.path} for c{job.connection}" for job in jobs) or "none"
            raise Fault(f"{f'{len(found)} jobs' if found else 'no job'}{wanted} at {node}; its jobs are: {queued}")
        for done, at in enumerate(meant):
            self.tell(f"disk {node[1:]} {at + 1 - done}")

    # ---- expectations

    def expect(self, condition):
        if condition.is_of_end:
            self.finish()
            self.is_end_expected = True
            came = condition.tell(self.end)
        elif not self.world.lines:
            raise Fault("before `go` nothing can be expected but `refused` and `status`")
        else:
            came = condition.tell(self.world)
        if came is not None:
            self.failed.append((self.number, f"expected: {condition.text}; came: {came}"))
            if not self.keeps_going:
                raise Fault(self.failed.pop()[1])

    # ---- what is written

    def text(self):
        return "".join(line + "\n" for line in self.schedule).encode()

    def report(self):
        """The report of the schedule alone. It is compared with what the script has seen."""
        done = held_program.replay(self.path, self.text())
        again = without_numbers(done.stdout.decode("latin-1").splitlines())
        if again != self.records or (done.returncode, done.stderr.decode("latin-1").strip()) != (self.end.status, self.end.said()):
            raise Fault("the schedule, replayed by itself, has another report than the script has seen")
        return done.stdout


def without_numbers(records):
    """Records without the numbers of their events, which the marks between them move."""
    return [re.sub(r"^event [0-9]+ ", "event ", record) for record in records]
