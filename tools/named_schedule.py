"""A schedule whose packets and jobs are named by what made them, so that lines may go and the numbers of the others follow.

A packet is named by the event that sent it, and its place among what that event sent; a job by the event that queued it in
the same way. So where a line is taken out, `deliver 17` becomes `deliver 15`, if that is now the number of the packet that it
meant. A line goes with another where it means what is no more: a packet, a job, or a client that did not open.
"""

from collections import namedtuple

from held_program import Ended, Held

# an event of a schedule: its number in the schedule that was read, its words, and the name of its packet or job, if it has one
Event = namedtuple("Event", "key words name")
# a run: the first lines, the events that were told, the lines that they are, and the report
Played = namedtuple("Played", "head events lines text")


def client_of(words):
    """The client that must have opened before this line, or None."""
    if words[0] == "timer":
        return words[2]
    return words[1] if words[0] in ("get", "write", "shut", "abort", "hold", "take", "inject") else None


class Names:
    """The packets of a run by their names, and the names by their numbers."""

    def __init__(self, ahead):
        self.ahead, self.keys, self.numbers, self.named = ahead, {}, {}, 0

    def told(self, key):
        """The event with this key was told: what it made gets its name."""
        self.keys[self.ahead.event] = key
        while self.named < len(self.ahead.sent):
            self.named += 1
            self.numbers[self.name(self.ahead.sent[self.named])] = self.named

    def name(self, made):
        return self.keys[made.event], made.place

    def of(self, words):
        """The name of the packet or the job that a line means."""
        if words[0] in ("deliver", "lose"):
            return self.name(self.ahead.sent[int(words[1])])
        if words[0] == "disk":
            return self.name(self.ahead.jobs["n" + words[1]][int(words[2]) - 1])
        return None

    def line(self, event):
        """The line that an event is now, or None where what it means is no more."""
        words = event.words
        if words[0] in ("deliver", "lose"):
            number = self.numbers.get(event.name)
            return number and f"{words[0]} {number}"
        if words[0] == "disk":
            waiting = [self.name(job) for job in self.ahead.jobs.get("n" + words[1], [])]
            return f"disk {words[1]} {waiting.index(event.name) + 1}" if event.name in waiting else None
        return " ".join(words)


def named(program, lines):
    """The first lines of a schedule that replays, and its events, with their names."""
    go = lines.index("go") + 1
    events = []
    with Held(program) as held:
        names = Names(held.ahead)
        held.begin(lines[:go])
        for key, line in enumerate(lines[go:]):
            words = line.split(" ")
            events.append(Event(key, words, names.of(words)))
            held.tell(line)
            names.told(key)
    return lines[:go], events


def play(program, head, events):
    """The run of these events behind these first lines; None where the program refuses them."""
    told, opened = [], set()
    try:
        with Held(program) as held:
            names = Names(held.ahead)
            held.begin(head)
            for event in events:
                line = names.line(event)
                if line is None or client_of(event.words) not in opened | {None}:
                    continue
                if event.words[0] == "open":
                    opened.add(event.words[1])
                held.tell(line)
                names.told(event.key)
                told.append(event)
            held.end()
            return Played(head, told, held.lines, held.text())
    except Ended:
        return None
