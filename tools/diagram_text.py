"""A sequence diagram as text: a column for each place."""

from diagram import named

WIDEST = 44  # between two lifelines


def shortened(text, size):
    return text if len(text) <= size else text[:size - 2] + ".."


class Page:
    """Where the columns of a diagram are."""

    def __init__(self, diagram):
        rows, places = diagram.rows, diagram.places
        self.margin = max([6, *(len(row.step) for row in rows)]) + 3  # columns left of the first lifeline
        needed = [len(row.text) + 8 for row in rows if row.kind == "arrow"]
        needed += [len(row.text) + 4 for row in rows if row.kind == "note" and row.place != places[-1]]
        self.gap = min(max([16, *needed]), WIDEST)
        self.at = {place: self.margin + number * self.gap for number, place in enumerate(places)}
        self.last = max(self.at.values(), default=self.margin)

    def names(self):
        line = [" "] * (self.last + self.gap)
        for place, column in self.at.items():
            line[column:column + len(place)] = place
        return "".join(line).rstrip()

    def draw(self, row):
        """One row: the lifelines, the owners' as a bar, and over them what the row says."""
        line = [" "] * (self.last + self.gap)

        def put(column, text):
            line[column:column + len(text)] = text

        put(0, f"{row.step:>{self.margin - 3}}")
        owners = row.owners()
        for place, column in self.at.items():
            put(column, "#" if place in owners else "|")
        if row.kind == "arrow":
            self.arrow(row, put)
        elif row.kind == "note":
            put(self.at[row.place] + 2, shortened(row.text, self.gap - 3 if self.at[row.place] < self.last else 200))
        else:
            put(self.margin + 2, f"({row.text})" if row.kind == "fold" else row.text)
        return "".join(line).rstrip()

    def arrow(self, row, put):
        left, right = sorted((self.at[row.source], self.at[row.target]))
        put(left + 1, "-" * (right - left - 1))
        text = f" {shortened(row.text, self.gap - 8)} "
        if self.at[row.source] == left:
            put(right - 1, ">")
            put(left + 3, text)
        else:
            put(left + 1, "<")
            put(right - self.gap + 3, text)


def draw(diagram):
    """The lines of a diagram."""
    page = Page(diagram)
    yield diagram.title()
    heads = set(named(len(diagram.rows)))
    for number, row in enumerate(diagram.rows):
        if number in heads:
            yield ""
            yield page.names()
        yield page.draw(row)
