"""A trace of the policy lab: its text, read and written, and how long its requests stay open. docs/LAB.md has the format.

A Trace has the numbers of its configuration that it names, its files with their sizes, and its events, each as its words:
("req", path), ("done", number) or ("clock", milliseconds).
"""

import heapq
import re
from collections import deque
from types import SimpleNamespace

POLICIES = "rr", "hash", "lard", "lardr"
KEYS = {  # each with its least and its greatest value, and that which holds without it
    "nodes": (1, 64, 2),
    "low": (1, 1000, 25),
    "high": (1, 1000, 65),
    "age": (0, 2**32 - 1, 20000),
    "cache": (1, 2**30, 2**20),
}
MOST_REQUESTS = 16384
MOST_FILES = 65536
LONGEST_FILE = 2**20
MOST_BYTES = 2**26        # of all files, and of the text
MOST_NUMBER = 2**32 - 1   # in an event
LINE = re.compile(r"(lab) 1|(nodes|low|high|age|cache) (0|[1-9]\d{0,19})|(file) (/[!-~]{0,1023}) (0|[1-9]\d{0,19})|(go)"
                  r"|(req) (/[!-~]{0,1023})|(done|clock) (0|[1-9]\d{0,19})", re.ASCII)

LAB, NUMBERS, FILES, GO, EVENTS = range(5)  # the parts of a trace, and which may stand behind which
BEHIND = {None: {LAB}, LAB: {NUMBERS, FILES, GO}, NUMBERS: {NUMBERS, FILES, GO}, FILES: {FILES, GO}, GO: {EVENTS}, EVENTS: {EVENTS}}


class TraceError(Exception):
    """What is wrong with a trace, by its name and its line."""

    def __init__(self, name, line, fault):
        super().__init__(f"{name}: line {line}: {fault}" if line else f"{name}: {fault}")
        self.line, self.fault = line, fault


class Trace:
    """A trace. `head` is how many lines stand before its events."""

    def __init__(self, config, files, events):
        self.config, self.files, self.events = config, files, events
        self.head = 2 + len(config) + len(files)

    def text(self):
        lines = ["lab 1", *(f"{key} {value}" for key, value in self.config.items()), *(f"file {path} {size}" for path, size in self.files)]
        return "".join(line + "\n" for line in [*lines, "go", *(f"{kind} {value}" for kind, value in self.events)])

    def requests(self):
        return sum(kind == "req" for kind, _ in self.events)


def whole(config):
    """All numbers of a configuration of which these are named."""
    return SimpleNamespace(**{key: config.get(key, standard) for key, (_, _, standard) in KEYS.items()})


def room(config):
    """How many requests are open at most: (nodes - 1) * high + low - 1."""
    return (config.nodes - 1) * config.high + config.low - 1


# ---- reading

def part_of(words):
    """Which part of a trace a line is of."""
    kind = words[0] if words else None
    return {"lab": LAB, "file": FILES, "go": GO, **dict.fromkeys(KEYS, NUMBERS), None: None}.get(kind, EVENTS)


def parse(text, name):
    """The trace of a text."""
    if len(text) > MOST_BYTES:
        raise TraceError(name, None, "above 2^26 bytes")
    lines = text.split("\n")
    if lines.pop():
        raise TraceError(name, len(lines) + 1, "no line feed at its end")
    config, files, events, part = {}, {}, [], None
    for at, line in enumerate(lines, 1):
        found = LINE.fullmatch(line)
        words = [it for it in found.groups() if it] if found else []
        if part_of(words) not in BEHIND[part]:
            raise TraceError(name, at, "not a line of a trace")
        part = part_of(words)
        take(words, config, files, events, lambda fault, at=at: TraceError(name, at, fault))
    if part not in (GO, EVENTS):
        raise TraceError(name, len(lines) + 1, "it ends before `go`")
    return Trace(config, list(files.items()), events)


def take(words, config, files, events, wrong):
    """Takes one line, by its words."""
    kind = words[0]
    value = int(words[-1]) if kind in KEYS or kind in ("file", "done", "clock") else words[-1]
    if kind in KEYS:
        if kind in config:
            raise wrong(f"{kind} again")
        if not KEYS[kind][0] <= value <= KEYS[kind][1]:
            raise wrong(f"{kind} out of range: {value}")
        config[kind] = value
    elif kind == "file":
        if "?" in words[1] or value > LONGEST_FILE or words[1] in files:
            raise wrong("a path with ?" if "?" in words[1] else "file repeated" if words[1] in files else f"file too long: {value}")
        files[words[1]] = value
    elif kind == "go":
        if len(files) > MOST_FILES or sum(files.values()) > MOST_BYTES:
            raise wrong("too many files" if len(files) > MOST_FILES else "files too large")
        check(whole(config), wrong)
    elif kind != "lab":
        if kind != "req" and value > MOST_NUMBER:
            raise wrong("not a line of a trace")
        events.append((kind, value))


def check(config, wrong):
    """The numbers of a configuration go together."""
    if config.low > config.high:
        raise wrong(f"low {config.low} above high {config.high}")
    if room(config) == 0:
        raise wrong("no request can be admitted")


# ---- how long requests stay open

def clocks(milliseconds):
    """The time moves on by so much."""
    while milliseconds:
        yield "clock", min(milliseconds, MOST_NUMBER)
        milliseconds -= min(milliseconds, MOST_NUMBER)


def windowed(events, window):
    """These events with `done` of their own: before a request comes while so many are open, the oldest is done."""
    still_open, made = deque(), 0
    for kind, value in events:
        if kind == "done":
            continue
        if kind == "req":
            made += 1
            if len(still_open) == window:
                yield "done", still_open.popleft()
            still_open.append(made)
        yield kind, value


def timed(requests, most):
    """The events of requests, each a time, a path and how long it lasts, all in milliseconds, of which so many may be open. What
    ends at a time is done before a request comes then."""
    now, ends = None, []
    for number, (time, path, lasts) in enumerate(requests, 1):
        now = time if now is None else now
        while ends and ends[0][0] <= time:
            yield from ended(ends, now)
            now = max(now, ends[0][0])
            heapq.heappop(ends)
        yield from clocks(time - now)
        now = time
        yield "req", path
        if len(ends) < most:
            heapq.heappush(ends, (time + lasts, number))
    while ends:
        yield from ended(ends, now)
        now = heapq.heappop(ends)[0]


def ended(ends, now):
    """The request that ends next."""
    yield from clocks(ends[0][0] - now)
    yield "done", ends[0][1]


def without_full(events, most):
    """These events without `done` of requests that are full, where so many may be open; and which requests are."""
    full, open_ones, made, kept = set(), set(), 0, []
    for kind, value in events:
        if kind == "req":
            made += 1
            (full if len(open_ones) == most else open_ones).add(made)
        elif kind == "done":
            open_ones.discard(value)
        if kind != "done" or value not in full:
            kept.append((kind, value))
    return kept, full
