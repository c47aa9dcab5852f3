"""What is to happen in a run, as a pattern over its report: tools/find and tools/shrink look for it.

A pattern is a regular expression of Python (re), which is looked for in the whole text of the report: all its lines, each
ended by a line feed. `^` and `$` are the begin and the end of every line, and `.` is any character but a line feed: so `\\n`
goes on to the next line, and `(?s:.*?)` over as many lines as there need be.

A name in angle brackets stands for the bytes of a packet in hexadecimal, where it is a message of this kind or a segment with
this flag: <Offer> <Taken> <Forward> <Ask> <Tag> <Fetch> <Content> <Ended> <EndedAck> <Refused> <Give> <Given>, <SYN> <FIN>
<RST>.
"""

import re

import report as reports
from command_words import Wrong


def flag_of(name):
    """A segment whose byte of flags, the 14th, has this one. It begins with one of the two ports."""
    bit = 1 << reports.FLAGS.index(name)
    low = "".join(f"{digit:x}" for digit in range(16) if digit & bit)
    return rf"(?:9c40|0050)[0-9a-f]{{22}}[0-9a-f][{low}][0-9a-f]*"


NAMES = {name: f"{version:02x}{kind:02x}[0-9a-f]*" for (version, kind), (name, _) in reports.BODIES.items()}
NAMES |= {name: flag_of(name) for name in ("SYN", "FIN", "RST")}
BRACKETS = re.compile(r"(?<!\?P)<(%s)>" % "|".join(NAMES))


def pattern_of(word):
    """The pattern that a word is."""
    try:
        return re.compile(BRACKETS.sub(lambda found: NAMES[found[1]], word), re.MULTILINE)
    except re.error as error:
        raise Wrong(f"no regular expression: {error}: {word}") from None


def event_of(text, found):
    """The event in which what was found ends: its number, and 0 before the first."""
    end = text.find("\n", max(found.end() - 1, 0))
    begun = re.findall(r"^event ([0-9]+) ", text[:end], re.MULTILINE)
    return int(begun[-1]) if begun else 0
