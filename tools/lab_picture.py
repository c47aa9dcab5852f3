"""The picture of tools/policies: the share of misses by the number of nodes, and the load of each node, as SVG."""

from picture import AXES, COLOURS, element, picture, text, ticks, titled

WIDTH, LEFT, RIGHT = 1000, 70, 150  # of the picture, and what is beside the frames
MISSES_TOP, MISSES_HIGH = 122, 280  # the first frame
LOADS_HIGH, BETWEEN = 84, 34        # those of the loads, and what is between them
BAR = 36                            # how wide one is at most
NAMES = {
    "rr": "rr: in turn",
    "hash": "hash: by the path",
    "lard": "lard: LARD",
    "lardr": "lardr: LARD with replication",
    "one": "one: all caches in one",
}
# its colour, how wide its line is, and its strokes. Where two lines lie on each other, both are seen
LINES = {
    "rr": (COLOURS[0], 2, None),
    "hash": (COLOURS[2], 2, "8 3"),
    "lard": (COLOURS[5], 6, None),
    "lardr": (COLOURS[4], 2, "2 3"),
    "one": (COLOURS[3], 2, "10 3 2 3"),
}
STYLE = AXES + ".mark{stroke:#222;stroke-width:2}.bar{fill-opacity:.75}"
BOTTOM = MISSES_TOP + MISSES_HIGH


def percent(share):
    return f"{100 * share:.1f} %"


def line_of(policy, **attributes):
    """The attributes of a policy's line, and these."""
    colour, wide, dashes = LINES[policy]
    return {"class_": "series", "stroke": colour, "style": f"stroke-width:{wide}", "stroke_dasharray": dashes, **attributes}


def legend(policies):
    x = LEFT
    for policy in policies:
        yield element("line", **line_of(policy, x1=x, x2=x + 34, y1=80, y2=80))
        yield text(x + 41, 84, NAMES[policy])
        x += 62 + round(6.4 * len(NAMES[policy]))


# ---- the share of misses

def x_of(nodes, counts):
    """Where a number of nodes stands."""
    first, last = counts[0], counts[-1]
    return LEFT + 24 + round((WIDTH - LEFT - RIGHT - 48) * ((nodes - first) / (last - first) if last > first else 0.5), 1)


def y_of(share):
    return round(BOTTOM - MISSES_HIGH * share, 1)


def misses_axes(counts):
    yield text(LEFT, MISSES_TOP - 12, "share of misses among the requests that went to a node", class_="name")
    for tenth in range(0, 11, 2):
        yield element("line", class_="grid", x1=LEFT, x2=WIDTH - RIGHT, y1=y_of(tenth / 10), y2=y_of(tenth / 10))
        yield text(LEFT - 8, y_of(tenth / 10) + 4, f"{tenth * 10} %", class_="tick", text_anchor="end")
    named = -100
    for nodes in counts:
        x = x_of(nodes, counts)
        yield element("line", class_="axis", x1=x, x2=x, y1=BOTTOM, y2=BOTTOM + 5)
        if x - named >= 20:
            yield text(x, BOTTOM + 18, nodes, class_="tick", text_anchor="middle")
            named = x
    yield text((LEFT + WIDTH - RIGHT) / 2, BOTTOM + 36, "number of nodes", class_="tick", text_anchor="middle")
    yield element("path", class_="axis", d=f"M{LEFT},{MISSES_TOP}V{BOTTOM}H{WIDTH - RIGHT}")


def misses(table, policies, counts):
    """The line of each policy, the widest at the bottom, and where it ends its name and last share."""
    ends = []
    for policy in sorted(policies, key=lambda policy: -LINES[policy][1]):
        points = [(x_of(nodes, counts), y_of(table[nodes, policy].share_of_misses())) for nodes in counts]
        last = f"{policy} {percent(table[counts[-1], policy].share_of_misses())}"
        path = "M" + "L".join(f"{x},{y}" for x, y in points)
        yield element("path", titled(f"{NAMES[policy]}; with {counts[-1]} nodes {last}"), **line_of(policy, d=path))
        yield from (element("circle", cx=x, cy=y, r=LINES[policy][1] / 2 + 1.5, fill=LINES[policy][0]) for x, y in points)
        ends.append((points[-1][1] + 4, policy, last))
    for y, policy, last in apart(sorted(ends)):
        yield text(WIDTH - RIGHT + 10, y, last, style=f"fill:{LINES[policy][0]}" if policy != "lard" else None)


def apart(ends):
    """These names, from above, so that none lies on another; the last one not below the frame."""
    placed, below = [], 0
    for y, *words in ends:
        below = max(y, below + 15)
        placed.append((below, *words))
    over = max(0, below - BOTTOM - 4)
    return [(round(y - over, 1), *words) for y, *words in placed]


# ---- the loads

def loads_of(top, figures, policy, nodes, scale):
    """The load of each node by one policy: a bar up to its mean, and a mark at the greatest."""
    high = lambda load: round(top + LOADS_HIGH - LOADS_HIGH * load / scale[-1], 1)
    for value in (0, scale[-1] / 2, scale[-1]):
        yield element("line", class_="grid", x1=LEFT, x2=WIDTH - RIGHT, y1=high(value), y2=high(value))
        yield text(LEFT - 8, high(value) + 4, f"{value:,g}", class_="tick", text_anchor="end")
    step = (WIDTH - LEFT - RIGHT) / nodes
    wide = round(min(0.7 * step, BAR), 1)
    every = 1 if step >= 24 else 4 if step * 4 >= 24 else 8
    for node in range(1, nodes + 1):
        middle = round(LEFT + (node - 0.5) * step, 1)
        mean, peak = figures.load_of(node), figures.peaks[node - 1]
        told = titled(f"{policy}, n{node}: {mean:.1f} on average, {peak} at most")
        yield element("rect", told, class_="bar", x=round(middle - wide / 2, 1), y=high(mean), width=wide,
                      height=round(top + LOADS_HIGH - high(mean), 1), fill=LINES[policy][0])
        yield element("line", class_="mark", x1=round(middle - wide / 2, 1), x2=round(middle + wide / 2, 1), y1=high(peak), y2=high(peak))
        if node % every == 0 or node == 1:
            yield text(middle, top + LOADS_HIGH + 14, f"n{node}", class_="tick", text_anchor="middle")
    yield element("path", class_="axis", d=f"M{LEFT},{top}V{top + LOADS_HIGH}H{WIDTH - RIGHT}")
    yield text(WIDTH - RIGHT + 10, top + LOADS_HIGH / 2 - 10, policy, class_="name")
    yield text(WIDTH - RIGHT + 10, top + LOADS_HIGH / 2 + 6, "greatest over mean:", class_="tick")
    yield text(WIDTH - RIGHT + 10, top + LOADS_HIGH / 2 + 22, f"{figures.greatest_over_mean():.2f}")


def draw(table, policies, counts, headings):
    """The picture of a table: the figures by number of nodes and policy."""
    title = "share of misses and load by node"
    parts = [text(LEFT, 28 + 18 * at, words, class_="name" if at == 0 else "tick") for at, words in enumerate([title, *headings])]
    parts += [*legend(policies), *misses_axes(counts), *misses(table, policies, counts)]
    placing = [policy for policy in policies if policy != "one"]
    scale = ticks(max(1, *(max(table[counts[-1], policy].peaks) for policy in placing))) if placing else []
    top = BOTTOM + 84
    if placing:
        nodes = "1 node" if counts[-1] == 1 else f"{counts[-1]} nodes"
        parts.append(text(LEFT, top - 14, f"load by node with {nodes}, in requests that are open: the bar is the mean, the mark the greatest", class_="name"))
    for policy in placing:
        parts += loads_of(top, table[counts[-1], policy], policy, counts[-1], scale)
        top += LOADS_HIGH + BETWEEN
    return picture(WIDTH, top - (0 if placing else 20), title, STYLE, parts) + "\n"
