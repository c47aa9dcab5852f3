"""A schedule with faults, drawn from a seed: tools/faults writes it, and tools/find looks for what happens in it.

draw(program, seed, options) talks to the program line by line. Each packet has its fate drawn when it is sent, each job when
it is queued, each client before it opens; a time in steps, which nothing but the order comes from, says whose turn is next.
"""

import heapq
import random

from held_program import Held
from command_words import Number, Percent, Flag

DELAY = 2                 # steps that a packet is on its way
LATER = 8, 64             # and more of them where it is late: from so many on, below so many
COPY = 1, 40              # behind the first arrival, the second of a packet that comes twice
DISK, SLOW = 4, (40, 120)  # steps that a job takes, and more of them where the disk is slow
THINKING = 40             # a client waits below so many steps before its next line
SMALL = 200               # a small window has at most so many bytes
SEGMENTS = 100, 536, 1460  # the longest segment of a client is one of these
CONFIGURED = "low high age idle over miss cache stream".split()

OPTIONS = {
    "--clients": Number(4, 1, 1000, "clients that open"),
    "--steps": Number(200, 1, 100000, "lines between `go` and the settle; fewer where nothing is left on the way"),
    "--nodes": Number(3, 1, 64, "nodes"),
    "--files": Number(6, 0, 256, "files, /f0 and so on; clients ask for one more path, which is none"),
    "--bytes": Number(2000, 1, 65536, "each file has 1 to so many bytes"),
    "--requests": Number(4, 0, 100, "each client asks 1 to so many times, or never with 0"),
    "--loss": Percent(5, "of the packets are lost"),
    "--repeat": Percent(5, "of the packets that arrive come once more"),
    "--late": Percent(10, "of the packets arrive 8 to 63 steps later than the others do"),
    "--timer": Percent(5, "of the steps, where a timer runs, are a timer that fires"),
    "--abort": Percent(10, "of the clients reset their connection, at any time"),
    "--shut": Percent(50, "of the others close their side behind their last request"),
    "--hold": Percent(10, "of the clients leave for a while in their window what they accept"),
    "--slow-disk": Percent(20, "of the disks' jobs take 40 to 119 steps more, and others are completed before"),
    "--drain": Percent(0, "of the nodes are closed, at any time while clients open, but one stays open"),
    "--small-window": Percent(20, "of the clients have a window of 1 to 200 bytes; the others have one of 65,535"),
    "--low": Number(2, 1, 1000, "the key `low` of the schedule"),
    "--high": Number(3, 1, 1000, "the key `high`"),
    "--age": Number(None, 0, 2**32 - 1, "the key `age`, and so on: no line without the option"),
    "--idle": Number(None, 0, 1000000, ""),
    "--over": Number(None, 0, 1000000, ""),
    "--miss": Number(None, 0, 1000000, ""),
    "--cache": Number(None, 1, 2**30, ""),
    "--stream": Number(None, 1, 2**30, ""),
    "--no-settle": Flag("the schedule ends behind its last step"),
}


class Chance:
    """What is drawn. Of Python's generator it uses `random` alone, which gives the same numbers in every version."""

    def __init__(self, seed):
        self.random = random.Random(seed).random

    def below(self, number):
        return int(self.random() * number)

    def between(self, bounds):
        return bounds[0] + self.below(bounds[1] - bounds[0])

    def hits(self, percent):
        return self.random() * 100 < percent


class Drawing:
    """A schedule that is drawn while the program replays it."""

    def __init__(self, held, seed, options):
        self.held, self.options = held, options
        self.chance = Chance(seed)
        self.now = self.count = 0
        self.due = []    # (when, a number that keeps the order, what)
        self.last = 0    # the last packet whose fate was drawn
        self.sizes = [1 + self.chance.below(options["--bytes"]) for _ in range(options["--files"])]
        self.asked = []  # the files, by number, that clients ask for

    def later(self, delay, what):
        """`what` is done so many steps from now. It is a function without arguments that gives a line."""
        self.count += 1
        heapq.heappush(self.due, (self.now + delay, self.count, what))

    # ---- before the events

    def head(self):
        numbers = [f"{key} {self.options['--' + key]}" for key in ["nodes", *CONFIGURED] if self.options["--" + key] is not None]
        files = [f"fill /f{number} {size} {97 + number % 26:02x}" for number, size in enumerate(self.sizes)]
        return ["lard 1", *numbers, *files, "go"]

    def plan_client(self, client):
        """Draws what a client does, and when."""
        chance, options = self.chance, self.options
        at = chance.below(8 * options["--clients"])
        window = 1 + chance.below(SMALL) if chance.hits(options["--small-window"]) else 65535
        segment = SEGMENTS[chance.below(len(SEGMENTS))]
        plan = [(at, f"open {client} {chance.below(2**32)} {chance.below(2**32)} {window} {segment}")]
        if chance.hits(options["--hold"]):
            hold = at + chance.below(THINKING)
            plan += [(hold, f"hold {client}"), (hold + chance.between(LATER), f"take {client}")]
        last = at
        for _ in range(1 + chance.below(options["--requests"]) if options["--requests"] else 0):
            last += chance.below(THINKING) if chance.below(2) else 0
            file = chance.below(options["--files"] + 1)
            self.asked.append(file)
            plan.append((last, f"get {client} /f{file}"))
        last += chance.below(THINKING)
        if chance.hits(options["--abort"]):
            last = at + chance.below(last + THINKING - at)
            plan.append((last, f"abort {client}"))
        elif chance.hits(options["--shut"]):
            plan.append((last, f"shut {client}"))
        else:
            last = max(when for when, _ in plan)
        for when, line in sorted(plan, key=lambda one: one[0]):
            if when <= last or line.startswith("take"):
                self.later(when, lambda line=line: line)

    def plan_drains(self):
        """Draws which nodes are closed, and when; nothing at 0 percent, so that the option changes no schedule without it."""
        chance, options = self.chance, self.options
        if not options["--drain"]:
            return
        closed = [node for node in range(1, options["--nodes"] + 1) if chance.hits(options["--drain"])]
        for node in closed[:options["--nodes"] - 1]:
            self.later(chance.below(8 * options["--clients"]), lambda node=node: f"drain {node}")

    # ---- the events

    def draw(self):
        self.held.begin(self.head())
        for client in range(1, self.options["--clients"] + 1):
            self.plan_client(client)
        self.plan_drains()
        for _ in range(self.options["--steps"]):
            line = self.next_line()
            if line is None:
                break
            self.held.tell(line)
            self.draw_fates()
        if not self.options["--no-settle"]:
            self.held.tell(f"settle {self.rounds()}")

    def next_line(self):
        """A timer that fires by chance, or what is due next."""
        timers = self.held.ahead.timers
        if timers and self.chance.hits(self.options["--timer"]):
            return "timer %s %d" % sorted(timers)[self.chance.below(len(timers))]
        if not self.due:
            return None
        self.now, _, what = heapq.heappop(self.due)
        return what()

    def draw_fates(self):
        """The fates of the packets that the last line sent and of the jobs that it queued."""
        ahead, options = self.held.ahead, self.options
        while self.last < len(ahead.sent):
            self.last += 1
            self.draw_fate(self.last)
        for node, jobs in sorted(ahead.jobs.items()):
            for job in jobs:
                if job.event == ahead.event:
                    slow = self.chance.between(SLOW) if self.chance.hits(options["--slow-disk"]) else 0
                    self.later(DISK + slow, lambda node=node, job=job: f"disk {node[1:]} {ahead.jobs[node].index(job) + 1}")

    def draw_fate(self, packet):
        chance, options = self.chance, self.options
        if chance.hits(options["--loss"]):
            self.later(DELAY, lambda: f"lose {packet}")
            return
        delay = DELAY + (chance.between(LATER) if chance.hits(options["--late"]) else 0)
        self.later(delay, lambda: f"deliver {packet}")
        if chance.hits(options["--repeat"]):
            self.later(delay + chance.between(COPY), lambda: f"deliver {packet}")

    def rounds(self):
        """Enough rounds to settle: for each client, each request, and the bytes of requests and of responses."""
        written = answered = 0
        for file in self.asked:
            written += len(f"GET /f{file} HTTP/1.1\r\nHost: lard\r\n\r\n")
            size = self.sizes[file] if file < len(self.sizes) else 0
            answered += 45 if file == len(self.sizes) else size + 37 + len(str(size))
        return 128 * (self.options["--clients"] + 1) + 64 * len(self.asked) + 16 * (written + answered)


def draw(program, seed, options):
    """The lines of the schedule that this seed gives, and its report."""
    with Held(program) as held:
        Drawing(held, seed, options).draw()
        held.end()
        return held.lines, held.text()
