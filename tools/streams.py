"""What was heard of a client and what was said to it, as the records of a report tell it: docs/REPORTS-FOR-PROGRAMS.md, "Streams".

Heard is what the cluster took. It begins with the first plain SYN that comes, and goes on by bytes that a segment has at the
next place, which came to the place that has the connection, by itself or as a Forward; and by its FIN. How far it goes is
told by the cluster: by the number that a segment acknowledges, and by the bytes and the FIN that an Offer counts. So it is
known of every connection, also of one into which packets were injected.

Places are counted from the SYN of their side, which is 0: the k-th byte is at place k, and the FIN behind the last.
"""

from bisect import bisect_left
from types import SimpleNamespace

from report import ReportError

NUMBERS = 2**32  # sequence numbers, modulo which all of them count
HALF = 2**31     # one less than this behind another is after it (RFC 9293, 3.4)
LONGEST_HEAD = 8192


class Fault(Exception):
    """A record that tells of a stream that cannot be: no report of the program has it."""


class Growth:
    """A count that grows, and the step in which it came to each value."""

    def __init__(self):
        self.counts, self.steps = [0], [None]

    @property
    def now(self):
        return self.counts[-1]

    def reach(self, number, step):
        if number > self.now:
            self.counts.append(number)
            self.steps.append(step.name)

    def step_of(self, number):
        """The name of the step in which it came so far, or None."""
        return self.steps[bisect_left(self.counts, number)] if number <= self.now else None


class Stream:
    """One side. first: the number of its SYN, None before it. bytes: those behind it. ended: its FIN follows them. steps: how
    far it came in which step, by the place that comes next."""

    def __init__(self):
        self.first, self.bytes, self.ended, self.steps = None, bytearray(), False, Growth()

    @property
    def next(self):
        """The place that comes next: the SYN, the bytes and the FIN have one each (RFC 9293, 3.4)."""
        return 0 if self.first is None else 1 + len(self.bytes) + self.ended

    @property
    def end_step(self):
        """The step of its FIN, or None."""
        return self.steps.step_of(self.next) if self.ended else None

    def place_of(self, number):
        """The place of a sequence number, whose count begins again at 2^32."""
        return (number - self.first) % NUMBERS

    def begin(self, number, step):
        self.first = number
        self.steps.reach(1, step)

    def add(self, data, ended, step):
        self.bytes += data
        self.ended = ended
        self.steps.reach(self.next, step)


class Talk:
    """One connection, by the records so far: feed it those of its connection, in order, each with its step.

    heard, said: a Stream each. acknowledged: the place before which the client has all. served: the responses, in order.
    wrote: what the schedule's client wrote. injected: how many packets were put on the way in its name. notes: what no report
    of the program has. reset: by whom and in which step it was, or None. news: of each `got` that brought bytes or a FIN, by
    its line, how many bytes were heard of it (`new`), how many were heard before (`before`), how many places before it were
    not (`ahead`), whether the FIN was heard of it (`end`), and whether all of it was heard before (`is_old`)."""

    def __init__(self, report):
        self.report = report
        self.heard, self.said, self.acknowledged = Stream(), Stream(), Growth()
        self.served, self.wrote, self.injected = [], bytearray(), 0
        self.notes, self.reset, self.news = [], None, {}
        self.owner, self.window, self.is_over = None, 0, False
        self.pieces = []  # the segments that came and may have the next place, each with its `got` and its place

    def take(self, step, record):
        """One record more. Raises a ReportError with its line where it tells of what cannot be."""
        rule = getattr(self, "on_" + record.kind, None)
        if rule:
            try:
                rule(step, record)
            except Fault as fault:
                raise ReportError(self.report.path, record.line, str(fault)) from None

    # ---- who has the connection, and what is only counted

    def on_took(self, _, record):
        self.owner = record.place, record.epoch
        self.is_over = self.is_over or record.place == "front" and record.epoch > 1  # back, to answer what still comes

    def on_gave(self, *_):
        self.owner = None

    def on_served(self, _, record):
        self.served.append(record)

    def on_wrote(self, _, record):
        self.wrote += record.bytes

    def on_injected(self, *_):
        self.injected += 1

    def on_reset(self, step, _):
        self.ends_early(step, "the stream limit")

    def ends_early(self, step, who):
        """From here on nothing that comes counts. The first who ended it is told."""
        self.is_over = True
        self.reset = self.reset or {"by": who, "step": step.name}

    # ---- what comes

    def on_got(self, step, record):
        """A client's segment comes to the front end, or in a Forward to a node. It counts where that place has the connection."""
        packet = self.report.packets[record.packet - 1]
        part = packet.segment
        if packet.message and packet.message.kind == "Forward":
            part = packet.message.segment if self.owner == (packet.target, packet.message.epoch) else None
        elif packet.target != "front":
            return
        if part and self.heard.first is None:
            self.begins(step, part)
        elif part and self.owner and self.owner[0] == packet.target and not self.is_over and not self.is_closed():
            self.arrives(step, record, part)

    def begins(self, step, part):
        """A plain SYN begins the stream. What it carries is not taken (RFC 9293, 3.10.7.2)."""
        if "SYN" in part.flags and not part.flags & {"ACK", "RST", "FIN"}:
            self.heard.begin(part.seq, step)

    def is_closed(self):
        """Both FINs are done, so the connection is over (RFC 9293, 3.6)."""
        return self.heard.ended and self.said.ended and self.acknowledged.now == self.said.next

    def arrives(self, step, record, part):
        """A segment comes to the place that has the connection (RFC 9293, 3.10.7.4)."""
        is_plain = "ACK" in part.flags and not part.flags & {"SYN", "RST"}
        if self.is_acceptable(part):
            if is_plain:
                self.acknowledge(part, step)
            elif "RST" in part.flags and self.heard.place_of(part.seq) == self.heard.next:
                self.ends_early(step, "the client")
        if not is_plain or not (part.data or "FIN" in part.flags):
            return
        piece = SimpleNamespace(part=part, line=record.line, place=self.heard.place_of(part.seq))
        self.news[record.line] = self.news_of(piece)
        self.pieces.append(piece)

    def news_of(self, piece):
        """What is to be told of a piece before anything is heard of it."""
        at, size = self.inside(piece), len(piece.part.data)
        before, ahead = (min(max(0, at - self.heard.ended), size), 0) if at < HALF else (0, NUMBERS - at)
        is_old = at < HALF and not self.has_next(piece) and before == size
        return SimpleNamespace(new=0, before=before, ahead=ahead, end=False, is_old=is_old)

    def is_acceptable(self, part):
        """Table 6, by the window that was told last; at a window of 0 the next number is, for its ACK."""
        size = len(part.data) + len(part.flags & {"SYN", "FIN"})
        first = (self.heard.place_of(part.seq) - self.heard.next) % NUMBERS
        if self.window == 0:
            return first == 0
        return first < self.window or size > 0 and (first + size - 1) % NUMBERS < self.window

    def acknowledge(self, part, step):
        """What an ACK acknowledges that was said: one of what was not said counts for nothing."""
        if self.said.first is not None and self.said.place_of(part.ack) <= self.said.next:
            self.acknowledged.reach(self.said.place_of(part.ack), step)

    # ---- what is heard of it

    def inside(self, piece):
        """How far the next place is behind the first of this piece."""
        return (self.heard.next - piece.place) % NUMBERS

    def has_next(self, piece):
        """Whether a byte or the FIN of this piece is at the next place."""
        return self.inside(piece) < len(piece.part.data) + ("FIN" in piece.part.flags)

    def hear(self, step, place):
        """The cluster has all before this place: the stream goes on so far. Where two segments have the next place, the one
        that came last was taken: the program keeps none that came before."""
        while 0 < (place - self.heard.next) % NUMBERS < HALF:
            piece = next((it for it in reversed(self.pieces) if self.has_next(it)), None)
            if self.heard.first is None or self.heard.ended or piece is None:
                raise Fault(self.unheard(place))
            at, data, news = self.inside(piece), piece.part.data, self.news[piece.line]
            more = data[at:at + place - self.heard.next]
            ended = "FIN" in piece.part.flags and place > self.heard.next + len(more)  # then these are its last bytes
            self.heard.add(more, ended, step)
            self.acknowledge(piece.part, step)  # so it was acceptable
            news.new, news.end = news.new + len(more), ended
            self.pieces = [it for it in self.pieces if self.has_next(it) or self.inside(it) >= HALF]

    def unheard(self, place):
        """Why the cluster cannot have all before this place."""
        if self.heard.first is None:
            return "this acknowledges a client of whom no SYN came"
        if self.heard.ended:
            return "this acknowledges more than the FIN of the client"
        return f"this acknowledges all before place {place % NUMBERS:,} of the client, and no segment brought place {self.heard.next:,}"

    # ---- what is said

    def on_sent(self, step, record):
        """What the cluster sends tells how far it has heard: each segment with ACK does, and an Offer, behind which no segment
        of that place goes out."""
        if record.source[0] == "c":
            return
        if record.message and record.message.kind == "Offer":
            self.hear(step, 1 + record.message.got + record.message.fin)
        part = record.segment
        if part is None:
            return
        if "ACK" in part.flags:
            if self.heard.first is None:
                raise Fault(self.unheard(0))
            self.hear(step, self.heard.place_of(part.ack))
        if "RST" not in part.flags:
            self.window = part.window
            self.says(step, record, part)

    def says(self, step, record, part):
        """A segment of the cluster: its bytes are those of their places, or more of the stream."""
        said, begin, is_end = self.said, part.seq, "FIN" in part.flags
        if "SYN" in part.flags:
            if said.first not in (None, part.seq):
                raise Fault(f"the cluster's SYN has the number {part.seq}, and had {said.first}")
            said.begin(part.seq, step)
            begin += 1
        if not part.data and not is_end:
            return
        at = said.place_of(begin) - 1 if said.first is not None else -1
        old, end = said.bytes[at:at + len(part.data)] if at >= 0 else b"", at + len(part.data)
        if said.ended and end > len(said.bytes) or is_end and end < len(said.bytes):
            raise Fault("the cluster says more than its FIN")
        if not 0 <= at <= len(said.bytes):
            raise Fault(f"the cluster says place {at + 1 if at < HALF else at + 1 - NUMBERS:,}, and all that it said is before place {said.next:,}")
        alike = agreeing(old, part.data)
        if alike < len(old):
            self.notes.append(f"line {record.line}: byte {at + alike + 1:,} of the cluster is said again, and otherwise")
        said.add(part.data[len(old):], said.ended or is_end, step)


class Talks:
    """All connections of a report, by its steps so far. Of one whose stream cannot be no more is told from there on."""

    def __init__(self, report):
        self.report, self.talks, self.broken = report, {}, set()

    def take(self, step):
        """One step more, with all its records."""
        for record in step.records:
            c = record.connection
            if c is None or c in self.broken:
                continue
            try:
                self.talks.setdefault(c, Talk(self.report)).take(step, record)
            except ReportError:
                self.broken.add(c)

    def news_of(self, record):
        """What was heard of the segment that a `got` brought, by its step's end; None of one that has nothing to be heard, or
        came to no place that has the connection."""
        talk = self.talks.get(record.connection)
        return talk.news.get(record.line) if talk and record.connection not in self.broken else None


def talk_of(report, connection):
    """The whole of one connection."""
    talk = Talk(report)
    for step, records in report.steps_of(connection):
        for record in records:
            if record.connection == connection:
                talk.take(step, record)
    return talk


# ---- requests, as far as they can be told apart (docs/RULES.md, "The right responses": blocks)

def heads(data):
    """Where each head begins and ends, and how many bytes are behind the last that may begin another. A head of more than
    8,192 bytes is one too, as far as that, and the last."""
    found, at = [], 0
    while True:
        while data[at:at + 2] == b"\r\n":
            at += 2
        end = data.find(b"\r\n\r\n", at, at + LONGEST_HEAD)
        if end < 0:
            break
        found.append((at, end + 4))
        at = end + 4
    if len(data) - at >= LONGEST_HEAD:
        found.append((at, at + LONGEST_HEAD))
        at = len(data)
    return found, len(data) - at


TOLD = "line bytes heard code length place via said acknowledged".split()


def requests(talk):
    """A dict for each request that was heard, and for each response that no such request has; what there is not is None."""
    found, _ = heads(bytes(talk.heard.bytes))
    told = {number: head_of(talk, *place) for number, place in enumerate(found, 1)}
    begin = 1  # the place of a response's first byte
    for record in talk.served:
        told.setdefault(record.request, {}).update(
            code=record.code, length=record.length, place=record.place, via=record.via,
            said=talk.said.steps.step_of(begin + 1), acknowledged=talk.acknowledged.step_of(begin + record.length))
        begin += record.length
    return [{"request": number, **{name: told[number].get(name) for name in TOLD}} for number in sorted(told)]


def head_of(talk, begin, end):
    """What is told of a head: it is heard once the place behind it is the next one."""
    line = bytes(talk.heard.bytes[begin:end]).split(b"\r\n")[0].decode("latin-1")
    return {"line": line, "bytes": end - begin, "heard": talk.heard.steps.step_of(1 + end)}


def agreeing(one, other):
    """How many bytes two texts have alike from their first on."""
    if other.startswith(bytes(one)):
        return len(one)
    return next((at for at, pair in enumerate(zip(one, other)) if pair[0] != pair[1]), min(len(one), len(other)))
