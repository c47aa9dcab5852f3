"""The grammar of a schedule, as data: each form of a line, what each of its words may be, and where it may stand.

FORMS has the forms by their first words. Each word of a form has a kind, whose `text` says what it may be, as
docs/SCHEDULE.md does, and whose `fault` tells what is wrong with a word, or None. tools/check-why compares all of it with
that page and with the program, both ways.
"""

import re
from typing import NamedTuple

# ---- what words may be


def spelled(number):
    """A number as the manual has it: 16,384, and 2^32 - 1."""
    for n, rest in ((number, ""), (number + 1, " - 1")):
        if n >= 2**20 and n & (n - 1) == 0:
            return f"2^{n.bit_length() - 1}{rest}"
    return f"{number:,}"


def shown(word):
    """A word as it can be printed, cut where it is long."""
    text = "".join(c if " " <= c <= "~" else f"\\x{ord(c):02x}" for c in word)
    return f"`{text[:40]}..`" if len(text) > 40 else f"`{text}`"


class Number(NamedTuple):
    """A decimal number, without a sign and without leading zeros."""

    least: int
    most: int

    @property
    def text(self):
        return f"{spelled(self.least)} to {spelled(self.most)}"

    def fault(self, word):
        if not re.fullmatch(r"[0-9]+", word):
            return f"{shown(word)} is no number of decimal digits alone{self.meant(word)}"
        if len(word) > 1 and word[0] == "0":
            return f"{shown(word)} has a leading zero"
        if len(word) > 30 or not self.least <= int(word) <= self.most:
            return f"{shown(word)} is not from {self.text}"
        return None

    @staticmethod
    def meant(word):
        if re.fullmatch(r"[0-9]{1,3}(,[0-9]{3})+|[0-9]{1,3}(_[0-9]{3})+", word):
            return ": " + re.sub("[,_]", "", word)
        if re.fullmatch(r"0x[0-9a-fA-F]{1,16}", word):
            return f": {int(word, 16)}"
        named = re.fullmatch(r"[nc]([1-9][0-9]*)", word)
        return f": {named[1]}" if named else ""


class Exactly(NamedTuple):
    """One word, and no other."""

    word: str

    @property
    def text(self):
        return f"`{self.word}`"

    def fault(self, word):
        return None if word == self.word else f"{shown(word)} is not {self.text}"


MOST_PATH = 1024  # bytes, with the slash


class Path(NamedTuple):
    """A slash and visible bytes; the path of a file has no `?`."""

    query: bool

    @property
    def text(self):
        return "a path" if self.query else "a path without `?`"

    def fault(self, word):
        if not word.startswith("/"):
            return f"the path {shown(word)} does not begin with `/`"
        if len(word) > MOST_PATH:
            return f"the path has {len(word):,} bytes, and at most {MOST_PATH:,} are allowed"
        hidden = re.search(r"[^!-~]+", word)
        if hidden:
            spelling = "".join(f"%{ord(c):02X}" for c in hidden[0])
            return f"the path {shown(word)} has a byte that is not from `!` to `~`: as a URL has it, that is {spelling[:30]}"
        if "?" in word and not self.query:
            return f"the path {shown(word)} has a `?`, and a file has the path before it"
        return None


class Bytes(NamedTuple):
    """Bytes in hexadecimal, two digits each: at least one, at most so many, where there is a bound; or a dash for none."""

    most: int | None
    dash: bool

    @property
    def text(self):
        if self.most == 1:
            return "a byte in hexadecimal"
        count = f"1 to {self.most:,} bytes" if self.most else "at least 1 byte"
        return f"{count} in hexadecimal" + (", or `-`" if self.dash else "")

    def fault(self, word):
        if word == "-":
            return None if self.dash else "`-` stands for no bytes in a `file` alone: here is at least one"
        if not re.fullmatch(r"[0-9a-fA-F]+", word):
            return f"{shown(word)} is not hexadecimal{self.meant(word)}"
        if len(word) % 2:
            return f"{shown(word)} has {len(word):,} hexadecimal digits, an odd number: two are a byte"
        if self.most and len(word) > 2 * self.most:
            return f"{len(word) // 2:,} bytes, and at most {self.most:,} are allowed"
        return None

    @staticmethod
    def meant(word):
        if not word:
            return ""
        digits = word[2:] if re.fullmatch(r"0x([0-9a-fA-F]{2})+", word) else None
        if digits:
            return f": without `0x` it is {shown(digits)[1:-1]}"
        spelling = word.encode("latin-1").hex()
        return f"; as text it would be {spelling if len(spelling) <= 80 else spelling[:80] + '..'}"


MOST_NODE, MOST_CLIENT = 64, 16384
PLACES = f"`front`, `n1` to `n{MOST_NODE}`, or `c1` to `c{MOST_CLIENT}`"


def is_place(word):
    most = {"n": MOST_NODE, "c": MOST_CLIENT}.get(word[:1])
    return word == "front" or most is not None and Number(1, most).fault(word[1:]) is None


class Place(NamedTuple):
    """The front end, a node, or a client."""

    text: str = "a place"

    def fault(self, word):
        return None if is_place(word) else f"{shown(word)} is no place{self.meant(word)}: a place is {PLACES}"

    @staticmethod
    def meant(word):
        found = re.fullmatch(r"(front|n(?:ode)?|c(?:lient)?)[-_.:#]?0*([0-9]*)", word.lower())
        place = found and (found[1] if found[1] == "front" else found[1][0] + found[2])
        return f" (did you mean `{place}`?)" if place and is_place(place) else ""


# ---- forms

STAGES = ["first", "settings", "files", "go", "events"]  # in this order; one `lard 1`, one `go`


class Form(NamedTuple):
    """A form of a line: its first word, where it stands, and the words behind the first, each by its letters in the manual."""

    word: str
    stage: str
    words: dict

    @property
    def usage(self):
        fixed = [kind.word if isinstance(kind, Exactly) else letters for letters, kind in self.words.items()]
        return " ".join([self.word, *fixed])


KEYS = {  # a number of the configuration that is a line and not of this range is refused with its name
    "nodes": Number(1, 64),
    "low": Number(1, 1000),
    "high": Number(1, 1000),
    "age": Number(0, 2**32 - 1),
    "idle": Number(0, 10**6),
    "over": Number(0, 10**6),
    "miss": Number(0, 10**6),
    "cache": Number(1, 2**30),
    "stream": Number(1, 2**30),
}
STANDARD = {"nodes": 2, "low": 25, "high": 65, "age": 20000, "idle": 25, "over": 130, "miss": 50, "cache": 2**20, "stream": 2**30}
MOST_FILE, MOST_FILES, MOST_ALL_FILES = 2**20, 65536, 2**26  # bytes of one, how many, bytes of all
CLIENT = Number(1, MOST_CLIENT)
WORD = Number(0, 2**32 - 1)

FORMS = {form.word: form for form in [
    Form("lard", "first", {"1": Exactly("1")}),
    *(Form(key, "settings", {"N": Number(0, 2**64 - 1)}) for key in KEYS),
    Form("file", "files", {"PATH": Path(False), "HEX": Bytes(None, True)}),
    Form("fill", "files", {"PATH": Path(False), "N": Number(0, MOST_ALL_FILES), "HH": Bytes(1, False)}),
    Form("go", "go", {}),
    Form("open", "events", {"C": CLIENT, "ISN": WORD, "ISS": WORD, "WND": Number(1, 65535), "MSS": Number(1, 1460)}),
    Form("get", "events", {"C": CLIENT, "PATH": Path(True)}),
    Form("write", "events", {"C": CLIENT, "HEX": Bytes(None, False)}),
    Form("deliver", "events", {"K": WORD}),
    Form("lose", "events", {"K": WORD}),
    Form("shut", "events", {"C": CLIENT}),
    Form("abort", "events", {"C": CLIENT}),
    Form("hold", "events", {"C": CLIENT}),
    Form("take", "events", {"C": CLIENT}),
    Form("timer", "events", {"P": Place(), "C": CLIENT}),
    Form("disk", "events", {"N": WORD, "J": WORD}),
    Form("drain", "events", {"N": WORD}),
    Form("clock", "events", {"MS": WORD}),
    Form("settle", "events", {"R": Number(1, 2**32 - 1)}),
    Form("inject", "events", {"C": CLIENT, "HEX": Bytes(1520, False)}),
]}

