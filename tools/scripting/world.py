"""What the records so far tell of the cluster: what is on the way, which timers run, who owns what, who accepted what."""

from collections import Counter, defaultdict

import report as reports


class World:
    """It takes the records of one line of the schedule after the other.

    way: the records `sent` of the packets that are on the way, by number; came: of those that came, and are not lost; lost: of
    those that are lost. A packet that came may come again, but is not on the way.
    """

    def __init__(self):
        self.report = reports.Report()
        self.lines = 0
        self.way, self.came, self.lost, self.injected = {}, {}, {}, set()
        self.timers = {}  # (place, connection, kind), in the order in which they were armed
        self.jobs = defaultdict(list)  # of each node, the records `queued`
        self.owners = {}  # of each connection, the place that owns it, or None
        self.accepted = defaultdict(bytearray)  # of each connection
        self.served = defaultdict(list)  # of each connection, the records `served`
        self.assigned = {}  # of each connection and request, the node
        self.sets = defaultdict(list)  # of each path, the nodes that serve it
        self.closed = set()  # the nodes that are
        self.states = defaultdict(set)  # of each connection: aborted, reset, ended, touched, waiting, admitted
        self.settled = None  # the last record that ended a settle
        self.last = []  # the records of the schedule's last line, but for its event

    def take_heading(self, lines):
        self.lines = len(lines)
        reports.heading(self.report, lines[0].split(" "))
        for line in lines[1:]:
            _, path, length = line.split(" ")
            self.report.files[path] = int(length)

    def take(self, lines):
        """The records of a line of the schedule."""
        before = len(self.report.steps)
        self.add(lines)
        steps = self.report.steps[before:]
        self.last = [record for step in steps for record in step.records]
        for step in steps:
            for record in step.records:
                rule = getattr(self, "on_" + record.kind.replace(" ", "_"), None)
                if rule:
                    rule(record, step.event)

    def take_mark(self, lines):
        """The records of a line that is none of the schedule's."""
        self.add(lines)

    def add(self, lines):
        for line in lines:
            self.lines += 1
            reports.add(self.report, self.lines, line.split(" "))

    def nodes(self):
        return self.report.config["nodes"]

    def is_open(self, connection):
        return connection in self.report.opened

    # ---- packets

    def on_sent(self, record, event):
        self.way[record.packet] = record
        if event.form == "inject":
            self.injected.add(record.packet)

    def on_got(self, record, _):
        sent = self.way.pop(record.packet, None)
        if sent:
            self.came[record.packet] = sent

    def on_lost(self, record, _):
        for packets in (self.way, self.came):
            sent = packets.pop(record.packet, None)
            if sent:
                self.lost[record.packet] = sent

    # ---- timers and jobs

    def on_armed(self, record, _):
        self.timers[record.place, record.connection, record.timer] = True

    def on_cleared(self, record, _):
        self.timers.pop((record.place, record.connection, record.timer), None)

    def on_queued(self, record, _):
        self.jobs[record.place].append(record)

    def on_read(self, record, event):
        del self.jobs[record.place][event.job - 1]

    # ---- connections

    def on_took(self, record, _):
        self.owners[record.connection] = record.place

    def on_gave(self, record, _):
        self.owners[record.connection] = None

    def on_accepted(self, record, _):
        self.accepted[record.connection] += record.bytes

    def on_served(self, record, _):
        self.served[record.connection].append(record)

    def on_eof(self, record, _):
        self.states[record.connection].add("ended")

    def on_aborted(self, record, _):
        self.states[record.connection].add("aborted")
        self.states[record.connection].discard("waiting")

    def on_reset(self, record, _):
        self.states[record.connection].add("reset")

    def on_injected(self, record, _):
        self.states[record.connection].add("touched")

    def on_waits(self, record, _):
        self.states[record.connection].add("waiting")

    def on_admitted(self, record, _):
        self.states[record.connection].discard("waiting")
        self.states[record.connection].add("admitted")

    def on_released(self, record, _):
        self.states[record.connection].discard("admitted")

    # ---- choices

    def on_assigned_first(self, record, _):
        self.assigned[record.connection, record.request] = f"n{record.node}"
        nodes = self.sets[record.path]
        if record.add != "-":
            nodes.append(f"n{record.add}")
        if record.remove != "-":
            nodes.remove(f"n{record.remove}")

    def on_assigned_later(self, record, event):
        record.remove = "-"
        self.on_assigned_first(record, event)

    def on_closed(self, record, _):
        self.closed.add(record.place)
        for nodes in self.sets.values():
            if record.place in nodes:
                nodes.remove(record.place)

    # ---- settling

    def on_settled(self, record, _):
        self.settled = record

    def on_unsettled(self, record, _):
        self.settled = record

    # ---- counts

    def codes(self, connection):
        """The codes of the answers that this client has accepted whole."""
        left, codes = len(self.accepted[connection]), []
        for record in self.served[connection]:
            left -= record.length
            if left < 0:
                break
            codes.append(record.code)
        return codes

    def served_at(self, connections):
        """How often each place served these connections, by which way, with which code."""
        return Counter(
            (record.place, way_of(record), record.code) for it in connections for record in self.served[it]
        )


def way_of(record):
    """own, cache, disk or n7."""
    return "n" + record.via[4:] if record.via.startswith("node") else record.via
