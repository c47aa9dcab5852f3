"""The words of a script's line: texts in quotes, comments, numbers and places; and what is said of a word that cannot stand."""

import difflib
import re

PLACE = re.compile(r"front|n(?:[1-9]|[1-5][0-9]|6[0-4])|c[1-9][0-9]{0,4}")
CLIENTS = 16384
ESCAPES = {"r": b"\r", "n": b"\n", "t": b"\t", "0": b"\0", '"': b'"', "\\": b"\\"}
QUOTED = re.compile(r'"((?:[^"\\]|\\.)*)"(?!\S)')
WORD = re.compile(r"\S+")
SHOWN = 120  # of a longer text so many bytes are shown


class Fault(Exception):
    """Why a script cannot go on: a sentence, lines that stand below it, and the script's line, told by who knows it."""

    def __init__(self, why, more=(), line=None):
        super().__init__(why)
        self.more, self.line = list(more), line


# ---- texts

def bytes_of_text(text):
    """The bytes of a text between its quotes. What is not ASCII is UTF-8."""
    made, at = b"", 0
    while at < len(text):
        if text[at] != "\\":
            made += text[at].encode()
            at += 1
            continue
        byte = re.match(r"x([0-9a-fA-F]{2})", text[at + 1:])
        if byte:
            made += bytes.fromhex(byte[1])
            at += 4
        elif text[at + 1] in ESCAPES:
            made += ESCAPES[text[at + 1]]
            at += 2
        else:
            raise Fault(f"`\\{text[at + 1]}` is no escape in a text: \\r \\n \\t \\0 \\\" \\\\ \\xHH are")
    return made


def shown(data):
    """These bytes as a text of a script. The middle of long ones is left out."""
    if len(data) > SHOWN:
        return f"{shown(data[:SHOWN // 2])} ... {shown(data[-SHOWN // 2:])}"
    spelled = {byte[0]: "\\" + letter for letter, byte in ESCAPES.items()}
    return '"' + "".join(spelled.get(it) or (chr(it) if 32 <= it < 127 else f"\\x{it:02x}") for it in data) + '"'


def spelled(word):
    return shown(word) if isinstance(word, bytes) else word


# ---- lines

def words_of(line):
    """The words of a line: a text in quotes is bytes, all else a str. A word that begins with # begins a comment."""
    words, at = [], 0
    while True:
        begin = re.compile(r"\s*").match(line, at).end()
        if begin == len(line) or line[begin] == "#":
            return words
        if line[begin] != '"':
            found = WORD.match(line, begin)
            words.append(found[0])
        else:
            found = QUOTED.match(line, begin)
            if not found:
                raise Fault('a text has no closing `"`, or something stands directly behind it')
            words.append(bytes_of_text(found[1]))
        at = found.end()


def either(options):
    """`a`, `b` or `c`."""
    *before, last = [f"`{it}`" for it in options]
    return f"{', '.join(before)} or {last}" if before else last


def nearest(word, options):
    """The options that a misspelt word could be meant for."""
    if not isinstance(word, str):
        return []
    spelled_so = {option.lower(): option for option in options}
    return [spelled_so[it] for it in difflib.get_close_matches(word.lower(), spelled_so, 3, 0.6)]


def unknown(word, options, where="here"):
    """What is said of a word that is none of the options."""
    near = nearest(word, options)
    if near:
        return f"`{spelled(word)}`: did you mean {either(near)}?"
    return f"`{spelled(word)}`: {where} stands {either(options)}"


class Words:
    """The words of one line, read from the left. `its` is the connection that the lines above named last, and `named` those
    that this line names."""

    def __init__(self, words, its=None):
        self.words, self.at = words, 0
        self.its, self.named = its, []
        self.tried = (0, [])  # at which word which ones could have stood

    def peek(self, ahead=0):
        at = self.at + ahead
        return self.words[at] if at < len(self.words) else None

    def take(self, what):
        """The next word, which is to be what is said."""
        word = self.peek()
        if word is None:
            raise Fault(f"the line ends where {what} is to stand")
        self.at += 1
        return word

    def rest(self):
        rest, self.at = self.words[self.at:], len(self.words)
        return rest

    def accept(self, *options):
        """The next word, where it is one of these."""
        word = self.peek()
        if word is None or word not in options:
            self.tried = (self.at, [*(self.tried[1] if self.tried[0] == self.at else []), *options])
            return None
        self.at += 1
        return word

    def want(self, *options):
        """The next word, which has to be one of these."""
        if self.peek() is None:
            raise Fault(f"the line ends where {either(options)} is to stand")
        found = self.accept(*options)
        if found is None:
            raise Fault(unknown(self.peek(), options))
        return found

    def want_all(self, phrase):
        """These words, one behind the other."""
        for word in phrase.split():
            self.want(word)

    def end(self):
        """Nothing is left. What is could be a misspelt word of those that might have stood there."""
        if self.peek() is None:
            return
        near = nearest(self.peek(), self.tried[1]) if self.tried[0] == self.at else []
        hint = f": did you mean {either(near)}?" if near else " stands behind the end of what the line says"
        raise Fault(f"`{spelled(self.peek())}`{hint}")

    # ---- numbers and places

    def number(self, what, low=0, high=2**64 - 1):
        return number_of(self.take(what), what, low, high)

    def client(self):
        """The number of a client that is written as c1."""
        place = self.place("a client, as c1,")
        if place[0] != "c":
            raise Fault(f"`{place}` is no client: those are c1 to c{CLIENTS}")
        return int(place[1:])

    def node(self):
        place = self.place("a node, as n1,")
        if place[0] != "n":
            raise Fault(f"`{place}` is no node: those are n1 to n64")
        return place

    def place(self, what="a place"):
        word = self.take(what)
        if not is_place(word):
            raise Fault(f"`{spelled(word)}` is no place: those are front, n1 to n64 and c1 to c{CLIENTS}")
        if word[0] == "c":
            self.named.append(int(word[1:]))
        return word


def is_place(word):
    return isinstance(word, str) and PLACE.fullmatch(word) is not None and (word[0] != "c" or int(word[1:]) <= CLIENTS)


def number_of(word, what, low, high):
    """A decimal number in its one spelling, in its range."""
    if not isinstance(word, str) or not re.fullmatch("[0-9]+", word):
        raise Fault(f"`{spelled(word)}` is no decimal number, as {what} is")
    if word != "0" and word[0] == "0":
        raise Fault(f"`{word}` has a leading zero")
    if not low <= int(word) <= high:
        raise Fault(f"{word} is not from {low:,} to {high:,}, as {what} is")
    return int(word)
