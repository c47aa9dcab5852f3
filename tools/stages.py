"""Where each connection is at each place, as the records of a report so far tell it, and so why a packet that comes is dropped.

The rules are those of docs/RULES.md, "Hand-off" and "A node". What an endpoint makes of a segment the report does not tell,
but for a RST with the number that is expected next.
"""

from types import SimpleNamespace

AWAY, OVER = "away", "over"          # of a connection at the front end: with a node, or ended
HERE, ENDED, GONE = "here", "ended", "gone"  # at a node: it has it, it gave it up, and that is acknowledged


class Stages:
    """front: of each connection that the front end took, its stage, and what it knows of the node. nodes: the same of each
    (node, connection). clients: why a client writes no longer."""

    def __init__(self, report):
        self.report = report
        self.front, self.nodes, self.clients = {}, {}, {}
        self.assigned, self.aborted, self.silent = {}, set(), set()
        self.expected = {}  # the number that each end of a connection expects next: (connection, whether it is the client)

    # ---- records

    def take(self, step, record):
        """One record more, of this step."""
        rule = getattr(self, "on_" + record.kind.replace("assigned first", "assigned"), None)
        if rule:
            rule(step, record)

    def on_took(self, step, record):
        c, epoch = record.connection, record.epoch
        if record.place != "front":
            self.nodes[record.place, c] = SimpleNamespace(stage=HERE, epoch=epoch, asked=0, awaits=False, fetches={})
        elif epoch == 1:
            self.front[c] = SimpleNamespace(stage="held", epoch=1, node=None, taken=False, asks=0, why="")
        elif c in self.front:
            self.front[c].stage, self.front[c].why = OVER, self.reason(step)

    def reason(self, step):
        """The reason that the Ended of this step gives."""
        body = self.report.packets[step.event.packet - 1].message if step.event.form == "deliver" else None
        return getattr(body, "reason", "")

    def on_assigned(self, _, record):
        self.assigned[record.connection] = f"n{record.node}"

    def on_gave(self, _, record):
        c = record.connection
        if record.place == "front" and c in self.front:
            row = self.front[c]
            row.stage, row.epoch, row.node = AWAY, record.epoch + 1, self.assigned.get(c)
        elif (record.place, c) in self.nodes:
            row = self.nodes[record.place, c]
            row.stage, row.awaits, row.fetches = ENDED, False, {}

    def on_reset(self, _, record):
        if record.place == "front" and record.connection in self.front:
            row = self.front[record.connection]
            row.stage, row.why = OVER, "stream limit"

    def on_cleared(self, _, record):
        row = self.nodes.get((record.place, record.connection))
        if record.place == "front" and record.timer == "offer" and record.connection in self.front:
            self.front[record.connection].taken = True
        elif row and record.timer == "ask":
            row.awaits = False
        elif row and record.timer == "ended":
            row.stage = GONE

    def on_sent(self, step, record):
        body, part = record.message, record.segment
        if part and "ACK" in part.flags and "RST" not in part.flags and step.event.form != "inject":
            self.expected[record.connection, record.source[0] == "c"] = part.ack  # an end tells it whenever it changes
        front = self.front.get(record.connection)
        if part and front and record.source == "front" and "FIN" in part.flags and front.stage == "held":
            front.stage = "closing"  # it ends where the other side is closed too, which is not told
        row = body and self.nodes.get((record.source, record.connection))
        if body and body.kind == "Tag" and front:
            front.asks = body.number
        elif row and row.stage == HERE and body.kind == "Ask":
            row.asked, row.awaits = body.number, True
        elif row and row.stage == HERE and body.kind == "Fetch":
            row.fetches[body.request] = record.target

    def on_aborted(self, step, record):
        self.aborted.add(record.connection)
        self.clients.setdefault(record.connection, f"it gave its connection up, at {named(step)}")

    def on_eof(self, step, record):
        self.clients.setdefault(record.connection, f"it took the end of its stream, at {named(step)}")

    def shut(self, step):
        """An event `shut`, which has no record of its own."""
        self.clients.setdefault(step.event.connection, f"it closed its side, at {named(step)}")

    # ---- packets

    def dropped(self, packet, flight):
        """Why the place that this packet comes to drops it, or None where it does not, or where that is not told."""
        c, target = packet.connection, packet.target
        if target[0] == "c":
            return self.dropped_by_client(packet)
        if packet.message is None:
            return self.dropped_segment(packet, self.front.get(c))
        rule = getattr(self, f"at_{'front' if target == 'front' else 'node'}_{packet.message.kind.lower()}", None)
        row = self.front.get(c) if target == "front" else self.nodes.get((target, c))
        if rule is None:
            return "no message of this kind counts here"
        return rule(packet, row, flight)

    def comes(self, step, packet):
        """A packet came and was not dropped: a content is awaited no longer, or the connection is reset. Whether it is reset
        at the place that the packet came to."""
        row = self.nodes.get((packet.target, packet.connection))
        if packet.message and packet.message.kind == "Content" and row:
            row.fetches.pop(packet.message.request, None)
        if packet.segment is None or not self.is_reset_by(packet):
            return False
        if packet.target == "front":
            self.front[packet.connection].stage, self.front[packet.connection].why = OVER, "reset by the client"
        else:
            self.silent.add(packet.connection)
            self.clients.setdefault(packet.connection, f"its connection was reset, at {named(step)}")
        return True

    def is_reset_by(self, packet):
        """A RST with the number that is expected next resets the end that it comes to, where that has the connection."""
        c, at_client = packet.connection, packet.target != "front"
        if "RST" not in packet.segment.flags or packet.segment.seq != self.expected.get((c, at_client)):
            return False
        return at_client or c in self.front and self.front[c].stage == "held"

    def dropped_by_client(self, packet):
        if packet.connection in self.silent:
            return "its connection was reset, and nothing is answered any more"
        if packet.connection in self.aborted and ("ACK" not in packet.segment.flags or "RST" in packet.segment.flags):
            return "it gave its connection up, and this asks for no answer"
        return None

    @staticmethod
    def dropped_segment(packet, row):
        if packet.segment is None:
            return "these bytes are no segment"
        flags = packet.segment.flags
        if row is None:
            begins = "SYN" in flags and not flags & {"ACK", "RST", "FIN"}
            return None if begins else "no connection is known here, and only a SYN begins one"
        if row.stage != OVER:
            return None
        if row.why == "reset by the client":
            return "the connection was reset, and nothing is answered any more"
        if row.why == "both sides closed" and ("RST" in flags or not (packet.segment.data or flags & {"SYN", "FIN"})):
            return "both sides of the connection are closed, and this asks for no answer"
        if row.why == "stream limit" and ("RST" in flags or "ACK" not in flags):
            return "the connection was reset at the stream limit, and this asks for no answer"
        return None

    # ---- messages, each at its place

    @staticmethod
    def at_front_taken(packet, row, _):
        if row is None or row.stage != AWAY or row.epoch != packet.message.epoch:
            return over(row)
        return "a Taken of this epoch came before" if row.taken else None

    @staticmethod
    def at_front_ask(packet, row, _):
        body = packet.message
        if row is None or row.stage != AWAY or (row.node, row.epoch) != (packet.source, body.epoch):
            return over(row)
        if body.number < row.asks:
            return f"Ask {row.asks} of this connection is answered already"
        return f"Ask {row.asks + 1} has not come" if body.number > row.asks + 1 else None

    @staticmethod
    def at_front_ended(packet, row, _):
        return None if row and (row.stage == OVER or row.epoch == packet.message.epoch) else over(row)

    @staticmethod
    def at_node_offer(packet, row, _):
        if row is None or row.epoch == packet.message.epoch:
            return None
        if row.epoch > packet.message.epoch:
            return f"it had the connection in epoch {row.epoch}, which is later"
        return None if row.stage == GONE else f"its end of epoch {row.epoch} is not acknowledged"

    @staticmethod
    def at_node_forward(packet, row, _):
        return absent(packet, row)

    @staticmethod
    def at_node_tag(packet, row, _):
        if absent(packet, row):
            return absent(packet, row)
        number = packet.message.number
        if number != row.asked:
            return f"it has asked since, by Ask {row.asked}" if number < row.asked else f"it has sent no Ask {number}"
        return None if row.awaits else f"the Tag of Ask {number} came before"

    @staticmethod
    def at_node_content(packet, row, _):
        if absent(packet, row):
            return absent(packet, row)
        request = packet.message.request
        if row.fetches.get(request) == packet.source:
            return None
        return f"it awaits no content for request {request} from there: that came before"

    @staticmethod
    def at_node_endedack(packet, row, _):
        if row is None or row.epoch != packet.message.epoch or row.stage == HERE:
            return "it told no end of the connection in this epoch"
        return "the end that it told is acknowledged already" if row.stage == GONE else None

    @staticmethod
    def at_node_fetch(packet, _, flight):
        if flight.is_queued(packet.target, packet.source, packet.connection, packet.message.request):
            return "a job of its disk is queued for this already"
        return None


def named(step):
    return f"{'step' if '.' in step.name else 'event'} {step.name}"


def over(row):
    if row and row.stage == OVER:
        return "the connection is over, and the front end has it back"
    return "the connection is not with this node in this epoch"


def absent(packet, row):
    """Why a message of a stay does not count at a node, where the connection is not here."""
    if row is None:
        return "it does not have the connection: no Offer of it has come"
    if row.epoch != packet.message.epoch:
        return f"its stay has epoch {row.epoch}"
    return None if row.stage == HERE else "it gave the connection up"
