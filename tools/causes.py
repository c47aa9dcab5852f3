"""Why a line of a schedule is refused, in words. tools/why prints it, and tools/replay does behind a refusal.

cause(text, line) takes the bytes of the schedule and the number of the line that the program names. Where the line is none
of a schedule it tells what is wrong with it; where it is one, and is refused for what it asks, it tells what stands in the
way, as far as the schedule alone says it.
"""

import difflib
import re

from grammar import FORMS, KEYS, MOST_ALL_FILES, MOST_FILE, MOST_FILES, STANDARD, shown, spelled

# words that people know from elsewhere, and the form that does this here
KNOWN = {
    "drop": "lose", "close": "shut", "fin": "shut", "reset": "abort", "rst": "abort", "connect": "open", "syn": "open",
    "request": "get", "send": "write", "read": "take", "recv": "take", "wait": "clock", "sleep": "clock", "run": "settle",
    "arrive": "deliver", "node": "nodes", "down": "drain", "quiesce": "drain",
}


def cause(text, line):
    """Why this line is refused, or None where that cannot be told from the schedule."""
    whole, rest = lines_of(text)
    if not 1 <= line <= len(whole) + 1:
        return None
    if line > len(whole):
        return of_bytes(rest, line) or no_end(whole, rest)
    before = [words_of(each) for each in whole[:line - 1]]
    return misspelt(whole[line - 1], before) or of_asking(words_of(whole[line - 1]), before)


def lines_of(text):
    """The lines that a line feed ends, and what stands behind the last."""
    *whole, rest = text.split(b"\n")
    return whole, rest


def words_of(line):
    return line.decode("latin-1").split(" ")


def misspelt(line, before):
    """Why a line is none of a schedule, behind lines of these words; None where it is one."""
    return of_bytes(line, len(before) + 1) or of_words(words_of(line), before)


# ---- what an editor hides

def of_bytes(line, number):
    """What is wrong with the bytes of a line, whatever its words are."""
    if number == 1 and line[:2] in (b"\xff\xfe", b"\xfe\xff"):
        return "the schedule is in UTF-16: save it as plain ASCII"
    if number == 1 and line[:3] == b"\xef\xbb\xbf":
        return "the schedule begins with a byte order mark, ef bb bf: save it as plain ASCII without one"
    if line.endswith(b"\r"):
        return "it ends in a carriage return (CR LF): save the schedule with LF alone at the end of each line"
    if b"\t" in line:
        return "it has a tab: words are separated by single spaces"
    hidden = re.search(rb"[\0-\x1f\x7f]", line)
    return f"it has the control character {hidden[0].hex()} at byte {hidden.start() + 1:,}" if hidden else of_spaces(line)


def of_spaces(line):
    if not line:
        return None
    if line.isspace():
        return "it has spaces alone: there are no empty lines"
    if line[:1] == b" ":
        return "it begins with a space"
    if line[-1:] == b" ":
        return "it ends with a space"
    if b"  " in line:
        return f"it has two spaces in a row at byte {line.index(b'  ') + 1:,}: words are separated by single spaces"
    return None


def no_end(whole, rest):
    """The line after the last line feed: it is cut, or is missing."""
    if rest:
        return "it is the last line, and no line feed ends it"
    if not whole:
        return "the schedule is empty: its first line is `lard 1`"
    return "the schedule ends before `go`"


# ---- words

def of_words(words, before):
    """What is wrong with a line whose bytes are fine."""
    first = words[0]
    if first == "":
        return "it is empty: there are no empty lines"
    if re.match(r"#|//|;|--", first):
        return "there are no comments"
    if not before:
        return of_first_line(words)
    if first not in FORMS:
        return f"no line begins with {shown(first)}{meant(words)}"
    form = FORMS[first]
    return of_place(form, [each[0] for each in before]) or of_form(form, words[1:])


def of_first_line(words):
    if words == ["lard", "1"]:
        return None
    if words[:2] == ["report", "1"]:
        return "this is a report, and no schedule: a schedule's first line is `lard 1`"
    if words[0] == "lard" and len(words) == 2:
        return f"the version is `1`, here {shown(words[1])}"
    return "the first line is `lard 1`"


def meant(words):
    """The form that was probably meant."""
    word = words[0].lower()
    near = [KNOWN[word]] if word in KNOWN else difflib.get_close_matches(word, FORMS, 1, 0.7)
    return f"; did you mean `{near[0]}`?" if near else ""


def of_place(form, before):
    """What is wrong with where a line stands, by the first words of those before it."""
    if form.stage == "first":
        return "`lard 1` is the first line alone: an input is one schedule"
    if "go" in before:
        at = before.index("go") + 1
        if form.word == "go":
            return f"`go` stands once, here in line {at} too"
        return None if form.stage == "events" else f"`{form.word}` stands before `go`, which is line {at}"
    if form.stage == "events":
        return f"`{form.word}` is an event: it stands behind `go`, and no `go` comes before it"
    if form.word in KEYS:
        files = [at for at, word in enumerate(before, 1) if word in ("file", "fill")]
        if form.word in before:
            return f"`{form.word}` stands once, here in line {before.index(form.word) + 1} too"
        return f"`{form.word}` stands before the files, which begin in line {files[0]}" if files else None
    return None


def of_form(form, words):
    """What is wrong with the words behind the first."""
    if len(words) != len(form.words):
        return of_count(form, words)
    for (letters, kind), word in zip(form.words.items(), words):
        fault = kind.fault(word)
        if fault:
            return f"{fault} ({letters} of `{form.usage}`)"
    if form.word == "timer" and words[0][0] == "c" and words[0][1:] != words[1]:
        return f"at a client's place its own timer alone runs: `timer c{words[1]} {words[1]}`"
    return None


def of_count(form, words):
    wanted = "no word" if not form.words else "1 word" if len(form.words) == 1 else f"{len(form.words)} words"
    more = ""
    if any(word.startswith("#") for word in words):
        more = "; there are no comments"
    elif len(words) > len(form.words) and "PATH" in form.words and "HEX" not in form.words:
        more = "; a space in a path is written %20"
    return f"`{form.usage}` has {wanted} behind the first, and here {'is' if len(words) == 1 else 'are'} {len(words)}{more}"


# ---- what a line asks that is of its form

def of_asking(words, before):
    """Why a line that is one is refused, as far as the lines before it say that."""
    form = words[0]
    if form in KEYS:
        return KEYS[form].fault(words[1])
    if form in ("file", "fill"):
        return of_file(words, before)
    if form == "go":
        return of_configuration(before)
    return of_client(words, before) or of_node(words, before) or of_packet(words, before)


def size_of(words):
    return int(words[2]) if words[0] == "fill" else 0 if words[2] == "-" else len(words[2]) // 2


def of_file(words, before):
    files = [(at, each) for at, each in enumerate(before, 1) if each[0] in ("file", "fill")]
    for at, each in files:
        if each[1] == words[1]:
            return f"line {at} has a file under this path"
    if size_of(words) > MOST_FILE:
        return f"a file has at most {spelled(MOST_FILE)} bytes"
    if len(files) >= MOST_FILES:
        return f"there are at most {MOST_FILES:,} files"
    if sum(size_of(each) for _, each in files) + size_of(words) > MOST_ALL_FILES:
        return f"all files have at most {spelled(MOST_ALL_FILES)} bytes together"
    return None


def setting(key, before):
    """The number of a key, and what sets it."""
    for at, words in enumerate(before, 1):
        if words[0] == key:
            return int(words[1]), f"by line {at}"
    return STANDARD[key], f"without a line `{key}`"


def of_configuration(before):
    (nodes, _), (low, of_low), (high, of_high) = (setting(key, before) for key in ("nodes", "low", "high"))
    if low > high:
        return f"`low` is {low:,} {of_low}, and `high` {high:,} {of_high}: `low` is at most `high`"
    if (nodes - 1) * high + low <= 1:
        return f"(nodes - 1) * high + low - 1 connections are admitted at a time, here none: ({nodes} - 1) * {high} + {low} - 1"
    return None


def of_client(words, before):
    """An event of a client that has not opened, and an `open` of one that has."""
    place = FORMS[words[0]].words
    if "C" not in place:
        return None
    client = words[1 + list(place).index("C")]
    opened = [at for at, each in enumerate(before, 1) if each[0] == "open" and each[1] == client]
    if words[0] == "open":
        return f"line {opened[0]} opens client {client}, and a client opens once" if opened else None
    return None if opened else f"no line before it opens client {client}"


def of_node(words, before):
    """A node that is not there, the last one that is open, and a job that is not there."""
    node = words[1] if words[0] in ("disk", "drain") else words[1][1:] if words[0] == "timer" and words[1][0] == "n" else None
    if node is None:
        return None
    nodes, why = setting("nodes", before)
    if not 1 <= int(node) <= nodes:
        return f"there {'is 1 node' if nodes == 1 else f'are {nodes} nodes'} {why}, numbered from 1"
    if words[0] == "disk":
        return "J is a job's place in the queue as it is now, from 1; `tools/explain --flight` tells which wait"
    return of_last(node, nodes, before) if words[0] == "drain" else None


def of_last(node, nodes, before):
    """A node beside which no other one is open is not closed."""
    closed = {}  # each other node, with the line that closes it
    for at, words in enumerate(before, 1):
        if words[0] == "drain" and words[1] != node:
            closed.setdefault(words[1], str(at))
    if len(closed) < nodes - 1:
        return None
    if nodes == 1:
        return "it is the only node, and one node stays open"
    lines = ", ".join(closed.values())
    return f"{f'line {lines} closes the other' if nodes == 2 else f'lines {lines} close all others'}, and one node stays open"


def of_packet(words, before):
    """A packet that was lost, or not sent."""
    if words[0] not in ("deliver", "lose"):
        return None
    lost = [at for at, each in enumerate(before, 1) if each == ["lose", words[1]]]
    if lost:
        return f"line {lost[0]} loses packet {words[1]}"
    return "packets are numbered from 1 as they are sent; `tools/explain --flight` tells which are on the way"
