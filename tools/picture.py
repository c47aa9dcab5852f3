"""What the pictures of tools/sequence, tools/loads and tools/policies have alike: the head of an SVG, its elements, and axes."""

import html


def element(name, content=None, **attributes):
    """One element of SVG. In the names of attributes _ stands for -, and a last _ for nothing: class_ is class."""
    words = [name] + [f'{key.rstrip("_").replace("_", "-")}="{escaped(value)}"' for key, value in attributes.items() if value is not None]
    return f"<{' '.join(words)}/>" if content is None else f"<{' '.join(words)}>{content}</{name}>"


def escaped(text):
    """Text as it may stand in an element or in an attribute. What no XML may have becomes a `?`."""
    text = "".join(letter if letter >= " " else "?" for letter in str(text))
    return html.escape(text)


def text(x, y, words, title=None, **attributes):
    return element("text", escaped(words) + titled(title), x=x, y=y, **attributes)


def titled(title):
    """What a browser shows where the pointer rests."""
    return "" if title is None else element("title", escaped(title))


def picture(width, height, title, style, parts):
    """A whole picture, of its parts and on white."""
    return "\n".join([
        f'<svg xmlns="http://www.w3.org/2000/svg" width="{width}" height="{height}" viewBox="0 0 {width} {height}" role="img">',
        element("title", escaped(title)),
        element("style", style),
        element("rect", width=width, height=height, fill="#fff"),
        *parts,
        "</svg>",
    ])


# ---- series over axes

# seven colours that stay apart for those who see some alike (Okabe and Ito), each with strokes of its own as well
COLOURS = "#0072b2", "#d55e00", "#009e73", "#cc79a7", "#000000", "#e69f00", "#56b4e9"
DASHES = None, "8 3", "2 3", "10 3 2 3", "14 4", "5 5", "1 4 8 4"
AXES = """text{font:12px sans-serif;fill:#222}.name{font-weight:bold}.tick{fill:#555;font-size:11px}.grid{stroke:#e3e3e3}
.axis{stroke:#666;fill:none}.series{fill:none;stroke-width:2;stroke-linejoin:round}"""


def spacing(most):
    """1, 2, 5, 10, 20 and so on: the first of which at most six make as many."""
    size = 1
    while size * 6 < most:
        size = size * 5 // 2 if str(size)[0] == "2" else size * 2
    return size


def ticks(most):
    """Round numbers from 0 on, of which the last is not below the most."""
    size = spacing(most)
    return [size * count for count in range(int(-(-most // size)) + 1)]
