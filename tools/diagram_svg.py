"""A sequence diagram as a picture: a lifeline for each place, and pages that can be looked at."""

from diagram import named
from picture import element, picture, text, titled

STEP = 20  # between two rows
COLUMN = 300  # between two lifelines
LETTER = 7.3  # the width of a letter
STUB = 110  # the length of an end of a broken arrow
FAR = 40  # rows: an arrow that would go down further is broken into its two ends
PAGE = 4000  # the height of a page
COLOURS = "#0072b2", "#d55e00", "#009e73", "#cc79a7", "#8a6d00", "#56b4e9", "#444444"  # of connections on one axis
STYLE = """text{font:12px monospace;fill:#222;paint-order:stroke;stroke:#fff;stroke-width:4px}.step{fill:#777;text-anchor:end}
.place{font-weight:bold;text-anchor:middle}.life{stroke:#999}.left{text-anchor:end}.fold{fill:#777}.owner{fill:#f2a33a}
.way{stroke-width:1.5}.broken{stroke-width:1.5;stroke-dasharray:7 3}.open{stroke-dasharray:2 4}
.lost{stroke:#b3261e;stroke-width:1.5;stroke-dasharray:4}.cross{stroke:#b3261e;stroke-width:2}"""


def shortened(words, width):
    size = max(8, int(width / LETTER))
    return words if len(words) <= size else words[:size - 2] + ".."


class Part:
    """The rows of a diagram from `first` to before `last`, as they stand on a page."""

    def __init__(self, diagram, first, last):
        self.diagram, self.first, self.last = diagram, first, last
        self.rows = diagram.rows
        self.numbers = range(first, last)
        self.sent = {row.packet: number for number, row in enumerate(self.rows) if row.kind == "arrow"}
        self.came = {}  # where each packet was delivered or lost
        for number, row in enumerate(self.rows):
            if row.kind == "note" and row.packet:
                self.came.setdefault(row.packet, []).append(number)
        self.place_columns()
        self.place_rows()

    def place_columns(self):
        """Left of the first lifeline is room for the names of steps, and for what came there from the right."""
        places = self.diagram.places
        bars = min(len(self.diagram.connections), len(COLOURS)) if len(self.diagram.connections) > 1 else 1
        self.aside = 5 + 5 * bars  # between what came from the right and its lifeline: there are the bars
        beside = [len(row.text) for row in self.rows if row.place == places[0] and self.is_from_right(row)]
        self.steps = round(10 + LETTER * max([6, *(len(row.step) for row in self.rows)]))
        left = round(self.steps + 16 + self.aside + LETTER * max([0, *beside]))
        self.at = {place: left + COLUMN * number for number, place in enumerate(places)}
        self.width = left + COLUMN * max(1, len(places))

    def place_rows(self):
        """A row below the title, above it the names of places where they stand; and as high as both are."""
        self.y, self.heads, y = {}, [], STEP
        heads = set(named(self.last - self.first))
        for number in self.numbers:
            if number - self.first in heads:
                y += STEP
                self.heads.append(y)
            y += STEP
            self.y[number] = y
        self.bottom, self.height = y + STEP // 2, y + 2 * STEP

    def is_from_right(self, row):
        """A packet came, or was lost, from the right: what is said of it stands at the left."""
        if row.kind != "note" or not row.packet:
            return False
        source = self.diagram.report.packets[row.packet - 1].source
        return self.diagram.places.index(source) > self.diagram.places.index(row.place)

    def nth(self, connection):
        """The number of the colour of a connection."""
        return self.diagram.connections.index(connection) % len(COLOURS)

    # ---- drawing

    def draw(self):
        behind = f", from step {self.rows[self.first].name} on" if self.first else ""
        yield text(10, STEP, self.diagram.title() + behind)
        for x in self.at.values():
            yield element("line", class_="life", x1=x, x2=x, y1=self.heads[0] + 6, y2=self.bottom)
        yield from self.bars()
        for number in self.numbers:
            yield from self.lines(number)
        for y in self.heads:
            for place, x in self.at.items():
                yield text(x, y, place, class_="place", style=self.style_of(place))
        for number in self.numbers:  # texts last, so that no line goes over them
            yield from self.words(number)

    def style_of(self, place):
        """On one axis with others a client's name has the colour of its connection."""
        if len(self.diagram.connections) == 1 or place[0] != "c":
            return None
        return f"fill:{COLOURS[self.nth(int(place[1:]))]}"

    def bars(self):
        """Where a place owns a connection."""
        for connection in self.diagram.connections:
            owner, since = self.rows[self.first].before[connection], self.heads[0] + 6
            for number in self.numbers:
                row = self.rows[number]
                if row.owner and row.owner[0] == connection:
                    yield from self.bar(connection, owner, since, self.y[number])
                    owner, since = row.owner[1], self.y[number]
            yield from self.bar(connection, owner, since, self.bottom)

    def bar(self, connection, owner, since, until):
        if owner and len(self.diagram.connections) == 1:
            yield element("rect", titled(f"{owner} owns it"), class_="owner", x=self.at[owner] - 4, y=since, width=8, height=until - since)
        elif owner:
            nth = self.nth(connection)
            yield element("rect", titled(f"{owner} owns connection {connection}"), x=self.at[owner] - 4 - 5 * nth, y=since,
                          width=4, height=until - since, fill=COLOURS[nth])

    def is_near(self, one, other):
        """Both rows are on this part, and an arrow may go from the one to the other."""
        return one in self.y and other in self.y and self.y[other] - self.y[one] <= FAR * STEP

    def lines(self, number):
        """The arrow of a row; and the end of one that is broken."""
        row = self.rows[number]
        if row.kind == "arrow":
            yield from self.arrow(number, row)
        elif row.kind == "note" and row.packet and not self.is_near(self.sent.get(row.packet), number):
            x, y = self.at[row.place], self.y[number]
            begin = x + (STUB if self.is_from_right(row) else -STUB)
            yield self.way("broken", row, (begin, y), (x, y)) if row.got else self.cut(row, (begin, y), (x, y))

    def arrow(self, number, row):
        """To where it was delivered; with a cross where it was lost; dotted where it is still on its way."""
        x, to, y = self.at[row.source], self.at[row.target], self.y[number]
        came = self.came.get(row.packet, [])
        for other in came:
            if self.is_near(number, other):
                end = to, self.y[other]
                yield self.way("way", row, (x, y), end) if self.rows[other].got else self.cut(row, (x, y), end)
        if any(not self.is_near(number, other) for other in came):
            yield self.way("broken", row, (x, y), (x + (STUB if to > x else -STUB), y), head=False)
        if not came:
            yield self.way("open", row, (x, y), ((x + to) // 2, y), head=False)

    def way(self, kind, row, begin, end, head=True):
        nth = self.nth(row.connection)
        return element("line", titled(row.whole), class_=kind, x1=begin[0], y1=begin[1], x2=end[0], y2=end[1],
                       stroke=COLOURS[nth], marker_end=f"url(#head{nth})" if head else None)

    def cut(self, row, begin, end):
        """A way that ends at a cross, before its end."""
        x, y = (round(a + (b - a) * 3 / 4) for a, b in zip(begin, end))
        line = element("line", titled(row.whole), class_="lost", x1=begin[0], y1=begin[1], x2=x, y2=y)
        return line + element("path", class_="cross", d=f"M{x - 5},{y - 5} l10,10 m0,-10 l-10,10")

    def words(self, number):
        row, y = self.rows[number], self.y[number]
        if row.step or number == self.first:
            yield text(self.steps, y + 4, row.step or row.name, class_="step")
        if row.kind == "arrow":
            yield from self.arrow_words(number, row)
        elif row.kind == "note" and self.is_from_right(row):
            yield text(self.at[row.place] - self.aside, y + 4, row.text, row.whole, class_="left")
        elif row.kind == "note":
            yield text(self.at[row.place] + 16, y + 4, shortened(row.text, COLUMN - 30), row.whole)
        else:
            x = min(self.at.values(), default=80) + 16
            yield text(x, y + 4, shortened(row.text, self.width - x), row.whole, class_="fold" if row.kind == "fold" else None)

    def arrow_words(self, number, row):
        x, to = self.at[row.source], self.at[row.target]
        far = [self.diagram.rows[other] for other in self.came.get(row.packet, []) if not self.is_near(number, other)]
        broken = f" ({', '.join(('got in ' if it.got else 'lost in ') + it.name for it in far)})" if far else ""
        words = shortened(row.text, abs(to - x) - 50 - LETTER * len(broken)) + broken
        right = to > x
        yield text(x + (40 if right else -40), self.y[number] - 1, words, row.whole, class_=None if right else "left")


# ---- pages

def room_of(height):
    """How many rows surely fit into this height."""
    slots = int(height / STEP) - 4
    return max(0, slots - slots // 40 - 1)


def pages_of(diagrams, limit):
    """The parts on each page. A diagram that fits on a page is not cut; without a limit there is one page."""
    page, used = [], 0
    for diagram in diagrams:
        first = 0
        while first < len(diagram.rows):
            rest = len(diagram.rows) - first
            room = rest if limit is None else room_of(limit - used)
            if page and room < rest and (rest <= room_of(limit) or room < 40):
                yield page
                page, used = [], 0
                continue
            page.append(Part(diagram, first, min(first + room, len(diagram.rows))))
            first, used = page[-1].last, used + page[-1].height
    yield page


def pages(diagrams, limit):
    """The pictures, of at most this height each, or one of all."""
    for page in pages_of(diagrams, limit):
        parts, top = [], 0
        colours = len({part.nth(connection) for part in page for connection in part.diagram.connections})
        for nth in range(colours):
            head = element("path", d="M0,0 L8,4 L0,8 Z", fill=COLOURS[nth])
            parts.append(element("defs", element("marker", head, id=f"head{nth}", markerWidth=8, markerHeight=8, refX=8, refY=4, orient="auto")))
        for part in page:
            parts += [f'<g transform="translate(0,{top})">', *part.draw(), "</g>"]
            top += part.height
        width = max((part.width for part in page), default=100)
        title = "; ".join(part.diagram.title() for part in page)
        yield picture(width, max(top, STEP), title, STYLE, parts)
