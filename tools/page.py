"""Pictures in PNG, and the page of three of them that tools/check-live has a browser show.

The images are drawn here pixel by pixel, and kept without compression, so that each takes some thirty segments. `fault_of` says
of a browser's picture of the page whether each of their pixels is in its place.
"""
import struct
import zlib

SIDE = 120                      # of an image, in pixels
TOP = 74                        # where the images stand on the page: their upper edge,
LEFTS = (24, 168, 312)          # their left edges,
SIZE = (456, 216)               # and the page itself
COLOURS = {"/red.png": (200, 44, 52), "/green.png": (38, 140, 84), "/blue.png": (46, 92, 184)}
PAGE = """<!DOCTYPE html>
<title>lardsim</title>
<style>
body { margin: 0; background: #fff; font: 22px sans-serif; color: #333 }
h1 { position: absolute; left: 24px; top: 24px; margin: 0; font-size: 22px }
img { position: absolute; top: %dpx }
</style>
<h1>A page over three nodes</h1>
""" % TOP + "".join('<img src="%s" style="left: %dpx">\n' % (path, left) for path, left in zip(COLOURS, LEFTS))


def pixel(colour, x, y):
    """A disc of a colour on a pale ground of it."""
    across, down = 2 * x + 1 - SIDE, 2 * y + 1 - SIDE
    is_disc = across * across + down * down < (SIDE - 20) ** 2
    return bytes(colour) if is_disc else bytes(255 - (255 - part) // 4 for part in colour)


def drawn(colour):
    """The rows of an image."""
    return [b"".join(pixel(colour, x, y) for x in range(SIDE)) for y in range(SIDE)]


def chunk(kind, data):
    return struct.pack("!I", len(data)) + kind + data + struct.pack("!I", zlib.crc32(kind + data))


def written(rows):
    """The PNG of these rows, without compression."""
    header = struct.pack("!IIBBBBB", len(rows[0]) // 3, len(rows), 8, 2, 0, 0, 0)
    data = zlib.compress(b"".join(b"\0" + row for row in rows), 0)
    return b"\x89PNG\r\n\x1a\n" + chunk(b"IHDR", header) + chunk(b"IDAT", data) + chunk(b"IEND", b"")


def files():
    """The page and its images, by their paths."""
    return {"/": PAGE.encode("ascii"), **{path: written(drawn(colour)) for path, colour in COLOURS.items()}}


# ---- reading

def chunks(data):
    at = 8
    while at + 8 <= len(data):
        length, kind = struct.unpack("!I4s", data[at:at + 8])
        yield kind, data[at + 8:at + 8 + length]
        at += length + 12


def read(data):
    """The rows of a PNG of 8 bits for each colour, not interlaced. What it says of transparency is passed over."""
    parts = list(chunks(data))
    if data[:8] != b"\x89PNG\r\n\x1a\n" or not parts or parts[0][0] != b"IHDR":
        raise ValueError("no PNG")
    width, height, depth, kind, *_, interlaced = struct.unpack("!IIBBBBB", parts[0][1])
    if depth != 8 or kind not in (2, 6) or interlaced:
        raise ValueError("a PNG of another kind")
    size = 3 if kind == 2 else 4
    rows, before = [], bytes(width * size)
    plain = zlib.decompress(b"".join(body for name, body in parts if name == b"IDAT"))
    for at in range(0, height * (width * size + 1), width * size + 1):
        before = unfiltered(plain[at], plain[at + 1:at + 1 + width * size], before, size)
        rows.append(bytes(before) if size == 3 else b"".join(before[x:x + 3] for x in range(0, len(before), 4)))
    return rows


def unfiltered(kind, row, above, size):
    """A row without its filter (PNG specification, 9.2)."""
    guess = GUESSES[kind]
    if not guess:
        return row
    row = bytearray(size) + row         # left of the first pixel stands 0
    above = bytes(size) + above
    for i in range(size, len(row)):
        row[i] = row[i] + guess(row[i - size], above[i], above[i - size]) & 255
    return row[size:]


def nearest(left, above, corner):
    """Paeth's guess: which of the three is nearest to left + above - corner."""
    from_left, from_above, from_corner = abs(above - corner), abs(left - corner), abs(left + above - 2 * corner)
    if from_left <= from_above and from_left <= from_corner:
        return left
    return above if from_above <= from_corner else corner


# what a filter guesses of a byte, from those left, above, and left above
GUESSES = [None, lambda left, above, corner: left, lambda left, above, corner: above,
           lambda left, above, corner: (left + above) // 2, nearest]


# ---- the page in a picture

def fault_of(data):
    """What is wrong with a browser's picture of the page, if anything is."""
    try:
        rows = read(data)
    except (ValueError, IndexError, zlib.error) as error:
        return str(error)
    if (len(rows[0]) // 3, len(rows)) != SIZE:
        return "%d x %d pixels" % (len(rows[0]) // 3, len(rows))
    for (path, colour), left in zip(COLOURS.items(), LEFTS):
        shown = [row[3 * left:3 * (left + SIDE)] for row in rows[TOP:TOP + SIDE]]
        wrong = sum(a[3 * x:3 * x + 3] != b[3 * x:3 * x + 3] for a, b in zip(shown, drawn(colour)) for x in range(SIDE))
        if wrong:
            return "%s: %d of its %d pixels are others" % (path, wrong, SIDE * SIDE)
    return ""
