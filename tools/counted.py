"""What a report counts as it goes on: the loads of the nodes, who is admitted, who waits, hits, misses and jobs.

These are the counts that the front end chooses by, as the records tell them (docs/RULES.md, "The choice of a node" and "A good
request is placed").
"""

from collections import Counter

import report as reports

WHOLE = 840  # the units of one connection: divided by each size of a batch from 1 to 8 without a rest


class Counted:
    """What the records so far have counted: feed it each record of a report, in order.

    loads: the units of each node. hits, misses: by node; a miss is a job that was queued. jobs: how many wait at each disk.
    admitted: the connections that are. line: those that wait, the first come first."""

    def __init__(self, report):
        nodes = range(1, report.config["nodes"] + 1)
        self.packets = report.packets
        self.loads, self.hits, self.misses, self.jobs = (Counter(dict.fromkeys(nodes, 0)) for _ in range(4))
        self.homes, self.shares = {}, {}  # of each admitted connection: its node, and its units at others
        self.told = {}  # the last segment that the cluster sent to each client
        self.admitted, self.line = set(), []

    def feed(self, record):
        if record.kind in COUNTING:
            COUNTING[record.kind](self, record)

    # ---- loads

    def assigned_first(self, record):
        """A connection counts at the node that it was assigned to first, until it is released."""
        self.homes[record.connection] = record.node
        self.loads[record.node] += WHOLE

    def assigned_later(self, record):
        """A request of a batch counts its part at another node, until the batch is over or the connection is released."""
        if self.homes.get(record.connection) != record.node:
            units = WHOLE // record.size
            self.shares.setdefault(record.connection, Counter())[record.node] += units
            self.loads[record.node] += units

    def batch_over(self, record):
        self.loads.subtract(self.shares.pop(record.connection, {}))

    # ---- admission

    def comes_in(self, record):
        self.admitted.add(record.connection)
        self.leaves(record.connection)

    def waits(self, record):
        self.line.append(record.connection)

    def leaves(self, connection):
        if connection in self.line:
            self.line.remove(connection)

    def is_released(self, record):
        self.admitted.discard(record.connection)
        self.batch_over(record)
        if record.connection in self.homes:
            self.loads[self.homes.pop(record.connection)] -= WHOLE

    def sent(self, record):
        if record.target[0] == "c":
            self.told[record.connection] = record.segment

    def got(self, record):
        """One that waits leaves the line by a RST that the front end takes (RFC 9293, 3.10.7.4, first and second)."""
        packet = self.packets[record.packet - 1]
        last, part = self.told.get(packet.connection), packet.segment
        if packet.target != "front" or not last or not part or "RST" not in part.flags or part.seq != last.ack:
            return
        if last.window > 0 or not part.data and not part.flags & {"SYN", "FIN"}:
            self.leaves(packet.connection)

    # ---- caches and disks

    def hit(self, record):
        self.hits[reports.number_of(record.place)] += 1

    def queued(self, record):
        node = reports.number_of(record.place)
        self.misses[node] += 1
        self.jobs[node] += 1

    def has_read(self, record):
        self.jobs[reports.number_of(record.place)] -= 1


COUNTING = {
    "assigned first": Counted.assigned_first,
    "assigned later": Counted.assigned_later,
    "batchover": Counted.batch_over,
    "admitted": Counted.comes_in,
    "released": Counted.is_released,
    "waits": Counted.waits,
    "sent": Counted.sent,
    "got": Counted.got,
    "hit": Counted.hit,
    "queued": Counted.queued,
    "read": Counted.has_read,
}


def steps_counted(report):
    """Each step, and what is counted at its end: the same Counted, one step further."""
    counted = Counted(report)
    for step in report.steps:
        for record in step.records:
            counted.feed(record)
        yield step, counted
