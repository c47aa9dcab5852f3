"""The rows of a sequence diagram: what tools/sequence draws of a report, as text or as a picture."""

from types import SimpleNamespace

import report as reports
from report import count


NAMED_EACH, LAST_NAMED = 40, 8  # rows, behind which the places are named again; but not above so few


class Row(SimpleNamespace):
    """A note at a place, an arrow from one place to another, or a text that is of no place.

    kind: `note`, `arrow`, `text`, or `fold`, a text in the place of others. text: what is to be read. whole: all of it, with
    its step. name: of its step; step: the same, or nothing behind the first row of that; number: of its event. connection: its
    own, or None. An arrow has source, target and packet; a note its place, and where a packet came or was lost there, packet
    and `got` or `lost`. before, behind: who owns each connection then. owner: where that changes, the connection and its owner."""

    got = lost = False
    packet = place = owner = None

    def owners(self):
        """The places that own a connection of the diagram, before it or behind it."""
        return {*self.before.values(), *self.behind.values()} - {None}


class Index:
    """What is looked up in a report: the steps of each connection, and what became of each packet.

    sent, got, lost: of each packet the names of the steps in which it was."""

    def __init__(self, report):
        self.report, self.sent, self.got, self.lost, self.places = report, {}, {}, {}, {}
        for step, record in report.records():
            places = self.places.setdefault(record.connection, [])
            if not places or places[-1] != step.at:
                places.append(step.at)
            if record.kind in ("sent", "got", "lost"):
                getattr(self, record.kind).setdefault(record.packet, []).append(step.name)

    def steps_of(self, connections):
        """The steps of these connections, and those of none."""
        places = set().union(*(self.places.get(connection, []) for connection in (None, *connections)))
        return [self.report.steps[place] for place in sorted(places)]

    def fate(self, packet):
        told = [f"delivered in step {step}" for step in self.got.get(packet, [])]
        told += [f"lost in step {step}" for step in self.lost.get(packet, [])]
        return ", ".join(told) or "on its way at the end"

    def comes_once(self, packet):
        return len(self.got.get(packet, [])) == 1 and packet not in self.lost


class Diagram:
    """The rows of some connections on one axis, from one event to another.

    connections: their numbers. rows: in order. places: clients, the front end, nodes, also those that the range leaves out.
    telling: the packets that tell another window."""

    def __init__(self, index, connections, first, last):
        self.index, self.report, self.connections, self.telling = index, index.report, connections, set()
        rows = Teller(self).rows()
        self.places = places_of(rows)
        self.rows = [row for row in rows if first <= row.number <= last]

    def title(self):
        if len(self.connections) == 1:
            return f"connection {self.connections[0]}"
        return f"connections {ranges(self.connections)}"

    def is_bare(self, row):
        """A row of a segment that has neither data nor SYN, FIN or RST, comes once, and tells no other window; or of its
        Forward."""
        if row.packet is None or row.packet in self.telling or not self.index.comes_once(row.packet):
            return False
        packet = self.report.packets[row.packet - 1]
        part = packet.segment or getattr(packet.message, "segment", None)
        return bool(part) and not part.data and not part.flags & {"SYN", "FIN", "RST"}

    def fold(self):
        """Each run of rows of bare segments becomes one row."""
        rows, run = [], []
        for row in [*self.rows, None]:
            if row and self.is_bare(row):
                run.append(row)
                continue
            if run:
                rows.append(folded(run))
                run = []
            if row:
                rows.append(row)
        self.rows = rows


def folded(run):
    """One row for these of bare segments."""
    sent, got = ({row.packet for row in run if (row.kind == "arrow") == is_sent} for is_sent in (True, False))
    groups = (got - sent, "got"), (sent & got, "sent and got"), (sent - got, "sent")
    packets = "; ".join(f"{ranges(sorted(group))} {what}" for group, what in groups if group)
    text = f"{count(len(sent | got), 'packet')} without data: {packets}"
    step = next((row.step for row in run if row.step), "")
    return Row(kind="fold", text=text, whole="; ".join(row.whole for row in run), step=step, name=step or run[0].name,
               number=run[0].number, connection=run[0].connection, before=run[0].before, behind=run[-1].behind)


def named(count):
    """The rows, of so many, above which the places are named."""
    return [row for row in range(0, count, NAMED_EACH) if row == 0 or count - row > LAST_NAMED]


def ranges(numbers):
    """4, 7 to 9 for 4, 7, 8, 9."""
    runs = []
    for number in numbers:
        if runs and runs[-1][1] == number - 1:
            runs[-1][1] = number
        else:
            runs.append([number, number])
    return ", ".join(f"{a}" if a == b else f"{a}, {b}" if a == b - 1 else f"{a} to {b}" for a, b in runs)


def places_of(rows):
    """The places of these rows: the clients, the front end, then the nodes, each in their order."""
    places = {place for row in rows for place in (row.place, getattr(row, "source", None), getattr(row, "target", None)) if place}
    return sorted(places, key=lambda place: ("cfn".index(place[0]), reports.number_of(place)))


# ---- what each event and record says

class Teller:
    """Goes through a report, and gives the rows of a diagram."""

    def __init__(self, diagram):
        self.diagram, self.report, self.connections = diagram, diagram.report, set(diagram.connections)
        self.delivered, self.owned = set(), dict.fromkeys(diagram.connections)
        self.windows = {}  # the last that each side of a connection told

    def rows(self):
        rows = []
        for step in self.diagram.index.steps_of(self.connections):
            records = [record for record in step.records if record.connection in self.connections or record.connection is None]
            found = [self.event_row(step.event), *(self.record_row(record) for record in records)]
            for nth, row in enumerate(row for row in found if row):
                row.name, row.number, row.step = step.name, step.number, "" if nth else step.name
                row.whole = f"step {step.name}: {row.whole}"
                row.before = self.owned
                if row.owner:
                    self.owned = {**self.owned, row.owner[0]: row.owner[1]}
                row.behind = self.owned
                rows.append(row)
        return rows

    def note(self, place, text, record, **more):
        """A note, with its connection before it where that is not seen."""
        of = "" if len(self.connections) == 1 or place[0] == "c" or record.connection is None else f"c{record.connection} "
        return Row(kind="note", place=place, text=of + text, whole=f"{of}{text}, at {place}", connection=record.connection, **more)

    def event_row(self, event):
        """What an event asks of a place; None where a record of its step says it."""
        if event.form in ("drain", "clock", "settle"):
            return Row(kind="text", text=event.text, whole=event.text, connection=None)
        if event.form in ("deliver", "lose", "disk") or event.connection not in self.connections:
            return None
        client = f"c{event.connection}"
        if event.form == "timer":
            return self.note(event.place, "timer", event)
        words = {
            "get": lambda: f"get {event.path}",
            "write": lambda: f"write {count(len(event.bytes), 'byte')}",
            "inject": lambda: f"inject (not by {client})",
        }.get(event.form, lambda: event.form)()
        return self.note(client, words, event)

    def record_row(self, record):
        """The row of a record, or None where it has none."""
        kind = record.kind
        if kind == "sent":
            return self.arrow(record)
        if kind in ("got", "lost"):
            return self.arrival(record)
        if kind in ("took", "gave"):
            text, owner = ("gives it up", None) if kind == "gave" else (f"takes it, epoch {record.epoch}", record.place)
            return self.note(record.place, text, record, owner=(record.connection, owner))
        if kind in ("settled", "unsettled"):
            left = f", {record.left} left" if kind == "unsettled" else ""
            text = f"{kind} after {count(record.rounds, 'round')}{left}"
            return Row(kind="text", text=text, whole=text, connection=None)
        told = self.words(record)
        return told and self.note(*told, record)

    def words(self, record):
        """The place of a record, and what is told of it there."""
        kind, place = record.kind, getattr(record, "place", "front")
        if kind == "accepted":
            return f"c{record.connection}", f"accepts {count(len(record.bytes), 'byte')}"
        if kind == "eof":
            return f"c{record.connection}", "end of the stream"
        if kind in ("waits", "admitted", "released", "batchover"):
            return place, "batch over" if kind == "batchover" else kind
        if kind.startswith("assigned"):
            return place, f"{record.path} to n{record.node}"
        if kind == "served":
            return place, f"answer {record.request}: {record.code}" + ("" if record.via == "own" else f", {record.via}")
        if kind == "hit":
            return place, f"has {record.path}"
        if kind == "closed":
            return "front", f"closes {place}"
        if kind in ("queued", "read"):
            return place, f"{'queues' if kind == 'queued' else 'reads'} {record.path}"
        if kind == "reset":
            return place, f"limit: {record.count:,} bytes"
        return None

    def arrow(self, record):
        packet, text = record.packet, f"{record.packet} {reports.brief(self.report, record)}{self.window(record)}"
        if record.message and len(self.connections) > 1:
            text += f" (c{record.connection})"
        whole = f"packet {text}, from {record.source} to {record.target}, {self.diagram.index.fate(packet)}"
        return Row(kind="arrow", source=record.source, target=record.target, packet=packet, text=text, whole=whole, connection=record.connection)

    def window(self, record):
        """The window that a segment tells, where its side told another one before, or none."""
        part, side = record.segment, (record.connection, record.source[0] == "c")
        if not part or "RST" in part.flags or self.windows.get(side) == part.window:
            return ""
        self.windows[side] = part.window
        self.diagram.telling.add(record.packet)
        return f", window {part.window:,}"

    def arrival(self, record):
        packet = self.report.packets[record.packet - 1]
        again = " again" if record.kind == "got" and record.packet in self.delivered else ""
        self.delivered.add(record.packet)
        text = f"got {record.packet}{again}" if record.kind == "got" else f"{record.packet} is lost"
        row = self.note(packet.target, text, record, packet=record.packet, **{record.kind: True})
        row.text = text  # the packet's arrow says whose it is
        row.whole = f"{text}, at {packet.target}: {reports.brief(self.report, packet)}, sent by {packet.source} in step {self.diagram.index.sent[record.packet][0]}"
        return row
