"""A segment in words, from a client to the cluster, for `inject`:

    segment [seq NUMBER] [ack NUMBER] [flags FLAG ..] [window N] [mss N] [data BYTES ..] [checksum wrong]

NUMBER is absolute, or counted from the SYN of its side where it has a sign, as +1: for `seq` from the ISN of the client's line
`open`, for `ack` from the ISS there. `next` is one behind the highest number that this side has sent by then, the client itself
or the cluster to it, and `next+5` is 5 more. docs/FORMATS.md has the bytes.
"""

import re

import report as reports
from scripting.words import Fault, number_of, spelled, unknown

PARTS = ["seq", "ack", "flags", "window", "mss", "data", "checksum"]
PORTS = (40000).to_bytes(2, "big") + (80).to_bytes(2, "big")
RELATIVE = re.compile(r"(next)?([+-][0-9]+)?")
LONGEST = 1520  # bytes of an injected packet


class Segment:
    """Its parts as they were read. seq and ack are functions of what the client's side and the cluster's begin and go on with."""

    def __init__(self):
        self.seq = lambda first, _: first
        self.ack = None
        self.flags, self.window, self.mss, self.data, self.is_wrong = set(), None, None, b"", False

    def bytes_for(self, connection, world):
        """The bytes, as the connection stands now."""
        opened = world.report.opened[connection]
        seq = self.seq(opened.isn, next_of(world, connection, True))
        ack = self.ack(opened.iss, next_of(world, connection, False)) if self.ack else 0
        flags = self.flags | ({"ACK"} if self.ack else set())
        options = b"" if self.mss is None else b"\2\4" + self.mss.to_bytes(2, "big")
        bits = sum(1 << bit for bit, name in enumerate(reports.FLAGS) if name in flags)
        window = opened.window if self.window is None else self.window
        head = PORTS + number(seq) + number(ack) + bytes([(20 + len(options)) // 4 << 4, bits]) + window.to_bytes(2, "big")
        tail = b"\0\0" + options + self.data
        length = len(head) + 2 + len(tail)
        if length > LONGEST:
            raise Fault(f"the segment has {length:,} bytes, and a packet that is injected at most {LONGEST:,}")
        pseudo = reports.client_address(connection) + reports.CLUSTER + bytes([0, 6]) + length.to_bytes(2, "big")
        total = reports.checksum(pseudo + head + b"\0\0" + tail) ^ self.is_wrong
        return head + total.to_bytes(2, "big") + tail


def number(value):
    return (value % 2**32).to_bytes(4, "big")


def next_of(world, connection, is_client):
    """One behind the highest sequence number that a side has sent, counted as an offset from its first."""
    opened, furthest = world.report.opened[connection], 0
    first = opened.isn if is_client else opened.iss
    for packet in world.report.packets:
        part = packet.segment
        if packet.connection != connection or part is None or packet.packet in world.injected:
            continue
        if (packet.source[0] == "c") == is_client:
            end = (part.seq - first) % 2**32 + len(part.data) + len(part.flags & {"SYN", "FIN"})
            furthest = max(furthest, end)
    return first + furthest


# ---- reading

def read_segment(words):
    """The parts of a segment, to the end of the line."""
    words.want("segment")
    segment, seen = Segment(), set()
    while words.peek() is not None:
        part = words.want(*PARTS)
        if part in seen:
            raise Fault(f"`{part}` stands twice")
        seen.add(part)
        READERS[part](words, segment)
    if "ACK" in segment.flags and segment.ack is None:
        raise Fault("a segment with the flag ACK wants its number: `ack +1`, say")
    return segment


def sequence_number(words, what):
    """A function of the first number of a side and of its next one."""
    word = words.take(f"the number of `{what}`")
    found = RELATIVE.fullmatch(word) if isinstance(word, str) else None
    if found:
        more = int(found[2] or 0)
        return (lambda _, goes_on: goes_on + more) if found[1] else (lambda first, _: first + more)
    if not re.match("[0-9]", spelled(word)):
        raise Fault(f"`{spelled(word)}`: behind `{what}` stands a number, as 1001, +1, next or next+5")
    absolute = number_of(word, f"the number of `{what}`", 0, 2**32 - 1)
    return lambda *_: absolute


def read_seq(words, segment):
    segment.seq = sequence_number(words, "seq")


def read_ack(words, segment):
    segment.ack = sequence_number(words, "ack")


def read_flags(words, segment):
    while words.peek() is not None and words.peek() not in PARTS:
        for flag in str(words.take("a flag")).replace(",", " ").split():
            if flag.upper() not in reports.FLAGS:
                raise Fault(unknown(flag, reports.FLAGS, "for a flag"))
            segment.flags.add(flag.upper())
    if not segment.flags:
        raise Fault("`flags` names none")


def read_window(words, segment):
    segment.window = words.number("a window", 0, 65535)


def read_mss(words, segment):
    segment.mss = words.number("a segment size", 0, 65535)


def read_data(words, segment):
    while words.peek() is not None and words.peek() not in PARTS:
        segment.data += bytes_of(words.take("bytes"))
    if not segment.data:
        raise Fault('`data` has no bytes: data "GET /", say')


def read_checksum(words, segment):
    words.want("wrong")
    segment.is_wrong = True


READERS = {part: globals()[f"read_{part}"] for part in PARTS}


def bytes_of(word):
    """The bytes of a text, or of hexadecimal digits."""
    if isinstance(word, bytes):
        return word
    if not re.fullmatch("(?:[0-9a-fA-F]{2})+", word):
        odd = re.fullmatch("[0-9a-fA-F]+", word)
        raise Fault(f"`{word}` has an odd number of digits" if odd else f'`{word}` is not hexadecimal: is the text "{word}" meant?')
    return bytes.fromhex(word)
