"""A judge of reports in Python: what `lardsim audit` says of a text, by the rules of docs/AUDIT.md and docs/RULES.md.

It shares nothing with the program but those rules. tools/check-audit compares both, line by line. Nothing of it is proved.

said(text) is what the program prints: `records N` of a sound report, else the line that is refused, as `line 20: breaks choice`.
"""

import re
from types import SimpleNamespace

from rules import Ledger

KEYS = {  # of the heading, in its order, with their ranges
    "nodes": (1, 64), "low": (1, 1000), "high": (1, 1000), "age": (0, 2**32 - 1), "idle": (0, 1000000), "over": (0, 1000000),
    "miss": (0, 1000000), "cache": (1, 2**30), "stream": (1, 2**30),
}
RULES = "network owner sender admission choice cache clock".split()

# ---- the shapes of words: a pattern, and the least and the greatest number where it is one
NUMBER = "0|[1-9][0-9]*"
SHAPES = {
    "i": (NUMBER, 0, 2**64 - 1), "time": (NUMBER, 0, 2**64 - 1), "left": (NUMBER, 0, 2**64 - 1),
    "c": (NUMBER, 1, 16384), "n": (NUMBER, 1, 64), "epoch": (NUMBER, 0, 2**16 - 1), "code": (NUMBER, 0, 2**16 - 1),
    "wide": (NUMBER, 0, 2**32 - 1), "rounds": (NUMBER, 1, 2**32 - 1), "window": (NUMBER, 1, 65535), "mss": (NUMBER, 1, 1460),
    "hex": ("([0-9a-f]{2})+",), "short": ("([0-9a-f]{2}){1,1520}",), "path": ("/[!-~]{0,1023}",),
    "choice": ("-|" + NUMBER,), "timer": ("tcp|offer|ask|fetch|ended|give",), "which": ("first|later",),
    "place": (f"front|[nc]({NUMBER})",), "node": (f"n({NUMBER})",), "via": (f"own|cache|disk|node({NUMBER})",),
}

RECORDS = {
    "opened": "c:c isn:wide iss:wide wnd:wide mss_:wide", "wrote": "c:c bytes:hex", "sent": "k:wide source:place target:place bytes:hex",
    "got": "k:wide", "lost": "k:wide", "accepted": "c:c bytes:hex", "eof": "c:c", "took": "place:place c:c epoch:epoch",
    "gave": "place:place c:c epoch:epoch", "waits": "c:c", "admitted": "c:c", "released": "c:c",
    "assigned first": "connection:c r:wide which:which path:path node:n add:choice remove:choice",
    "assigned later": "connection:c r:wide which:which path:path node:n add:choice size:wide queue:wide",
    "batchover": "connection:c", "served": "place:place c:c r:wide code:code length:wide via:via", "hit": "n:node path:path",
    "queued": "n:node m:node c:c r:wide path:path", "read": "n:node m:node c:c r:wide path:path", "closed": "n:node",
    "armed": "place:place c:c kind_:timer", "cleared": "place:place c:c kind_:timer", "reset": "place:place c:c count:wide",
    "aborted": "c:c", "injected": "c:c", "clock": "time:time", "settled": "rounds_:wide", "unsettled": "rounds_:wide left:left",
}
EVENTS = {
    "open": "c:c isn:wide iss:wide wnd:window mss_:mss", "get": "c:c path:path", "write": "c:c bytes:hex", "shut": "c:c",
    "abort": "c:c", "hold": "c:c", "take": "c:c", "deliver": "k:wide", "lose": "k:wide", "timer": "place:place c:c",
    "disk": "node:wide job:wide", "drain": "node:wide", "clock": "time:wide", "settle": "rounds_:rounds", "inject": "c:c bytes:short",
}


class Refused(Exception):
    """What is wrong with a line."""


def value(shape, word):
    """What a word of this shape stands for."""
    pattern, *bounds = SHAPES[shape]
    if not re.fullmatch(pattern, word, re.ASCII):
        raise Refused("not a line of the schedule")
    if bounds:
        number = int(word)
        if not bounds[0] <= number <= bounds[1]:
            raise Refused("not a line of the schedule")
        return number
    tail = re.search("[0-9]+$", word) if shape in ("place", "node", "via", "choice") else None
    if tail:
        most = 16384 if word[0] == "c" else 64
        if not 1 <= int(tail[0]) <= most:
            raise Refused("not a line of the schedule")
    return word


def fields(form, words):
    names = [name.split(":") for name in form.split()]
    if len(names) != len(words):
        raise Refused("not a line of the schedule")
    return {name: value(shape, word) for (name, shape), word in zip(names, words)}


def event_of(words):
    if not words or words[0] not in EVENTS:
        raise Refused("not a line of the schedule")
    got = fields(EVENTS[words[0]], words[1:])
    if words[0] == "timer" and got["place"][0] == "c" and int(got["place"][1:]) != got["c"]:
        raise Refused("not a line of the schedule")
    return got | {"form": words[0]}


def record_of(line):
    """The record that a line is."""
    words = line.split(" ")
    kind = words[0]
    if kind == "event":
        return SimpleNamespace(kind="event", i=value("i", words[1]) if len(words) > 1 else value("i", ""), **event_of(words[2:]))
    if kind == "inner":
        return SimpleNamespace(kind="inner", **event_of(words[1:]))
    if kind == "assigned":
        kind += " " + (words[3] if len(words) > 3 else "")
    if kind not in RECORDS:
        raise Refused("not a line of the schedule")
    return SimpleNamespace(kind=kind, **fields(RECORDS[kind], words[1:]))


def file_of(line):
    """The path and the length of a file's line; None where it is none."""
    got = re.fullmatch(f"file (/[!->@-~]{{0,1023}}) ({NUMBER})", line, re.ASCII)
    if got and int(got[2]) < 2**64:
        return got[1], int(got[2])
    return None


def heading_of(line):
    """The configuration of a heading."""
    got = re.fullmatch("report 1 " + " ".join(f"{key} ({NUMBER})" for key in KEYS), line, re.ASCII)
    if not got or any(int(number) >= 2**64 for number in got.groups()):
        raise Refused("not a line of the schedule")
    config = {key: int(number) for key, number in zip(KEYS, got.groups())}
    for key, (least, most) in KEYS.items():
        if not least <= config[key] <= most:
            raise Refused(f"{key} out of range: {config[key]}")
    if config["low"] > config["high"]:
        raise Refused(f"low {config['low']} above high {config['high']}")
    if (config["nodes"] - 1) * config["high"] + config["low"] - 1 == 0:
        raise Refused("no connection can be admitted")
    return config


def number_of(node):
    """That of n7."""
    return int(node[1:])


class Judge:
    """What the records so far have led to."""

    def __init__(self, config):
        self.config, self.ledger = config, Ledger(config)
        self.room = (config["nodes"] - 1) * config["high"] + config["low"] - 1
        self.files, self.bytes, self.records, self.last = {}, 0, 0, None
        self.sent, self.lost = 0, set()
        self.owner, self.epoch, self.ins, self.now = {}, {}, set(), 0
        self.caches = {f"n{n}": [] for n in range(1, 65)}  # the most recent first
        self.jobs = {f"n{n}": [] for n in range(1, 65)}

    def add_file(self, path, size):
        if path in self.files:
            raise Refused("file repeated")
        if size > 2**20:
            raise Refused(f"file too long: {size}")
        if len(self.files) + 1 > 65536:
            raise Refused(f"too many files: {len(self.files) + 1}")
        if self.bytes + size > 2**26:
            raise Refused(f"files too large: {self.bytes + size}")
        self.files[path] = size
        self.bytes += size

    # ---- a rule each: whether the record keeps it

    def network(self, r):
        if r.kind == "sent":
            return r.k == self.sent + 1
        return r.kind not in ("got", "lost") or 1 <= r.k <= self.sent and r.k not in self.lost

    def owner_rule(self, r):
        if r.kind == "took":
            return r.c not in self.owner and r.epoch > self.epoch.get(r.c, 0)
        return r.kind != "gave" or self.owner.get(r.c) == r.place and self.epoch[r.c] == r.epoch

    def sender(self, r):
        if r.kind != "sent" or r.target[0] != "c" or r.source[0] == "c":
            return True
        return self.owner.get(int(r.target[1:])) == r.source

    def admission(self, r):
        if self.last is not None and self.last.kind == "admitted":
            return r.kind == "assigned first" and r.connection == self.last.c
        if r.kind == "waits":
            return len(self.ins) == self.room
        if r.kind == "admitted":
            return len(self.ins) < self.room and r.c not in self.ins
        return r.kind != "assigned first" and (r.kind != "released" or r.c in self.ins)

    def choice(self, r):
        if r.kind == "assigned first":
            best = self.ledger.first(r.path)
            return (best.node, str(best.add), str(best.remove)) == (r.node, r.add, r.remove)
        if r.kind == "assigned later":
            if r.connection not in self.ins or not 1 <= r.size <= 8 or len(self.ledger.shares.get(r.connection, [])) >= 8:
                return False
            best = self.ledger.later(r.connection, r.path, r.queue)
            return best is not None and (best.node, str(best.add)) == (r.node, r.add)
        nodes = self.ledger.open_nodes()
        return r.kind != "closed" or number_of(r.n) in nodes and len(nodes) > 1

    def cache(self, r):
        if r.kind == "hit":
            return r.path in self.caches[r.n]
        if r.kind == "queued":
            return r.path not in self.caches[r.n] and r.path in self.files
        return r.kind != "read" or self.named(r.n) == (r.m, r.c, r.r, r.path)

    def clock(self, r):
        return r.kind != "clock" or r.time >= self.now

    def named(self, node):
        """The job that the record before names, where that is an event of this node's disk."""
        before = self.last
        if before is None or before.kind not in ("event", "inner") or before.form != "disk" or f"n{before.node}" != node:
            return None
        jobs = self.jobs[node]
        return jobs[before.job - 1] if 1 <= before.job <= len(jobs) else None

    # ---- the records

    def feed(self, r):
        tests = self.network, self.owner_rule, self.sender, self.admission, self.choice, self.cache, self.clock
        for rule, test in zip(RULES, tests):
            if not test(r):
                raise Refused(f"breaks {rule}")
        self.note(r)
        self.last, self.records = r, self.records + 1

    def note(self, r):
        if r.kind == "sent":
            self.sent += 1
        elif r.kind == "lost":
            self.lost.add(r.k)
        elif r.kind == "took":
            self.owner[r.c], self.epoch[r.c] = r.place, r.epoch
        elif r.kind == "gave":
            del self.owner[r.c]
        elif r.kind == "admitted":
            self.ins.add(r.c)
        elif r.kind == "released":
            self.ins.discard(r.c)
            self.ledger.take(SimpleNamespace(kind="released", connection=r.c))
        elif r.kind in ("assigned first", "assigned later", "batchover"):
            self.ledger.take(r)
        elif r.kind == "closed":
            self.ledger.close(number_of(r.n))
        elif r.kind == "clock":
            self.now = r.time
            self.ledger.take(r)
        elif r.kind == "hit":
            self.caches[r.n].remove(r.path)
            self.caches[r.n].insert(0, r.path)
        elif r.kind == "queued":
            self.jobs[r.n].append((r.m, r.c, r.r, r.path))
        elif r.kind == "read":
            self.jobs[r.n].pop(self.last.job - 1)
            self.put(self.caches[r.n], r.path)

    def put(self, cache, path):
        if self.files[path] > self.config["cache"]:
            return
        if path in cache:
            cache.remove(path)
        cache.insert(0, path)
        while sum(self.files[one] for one in cache) > self.config["cache"]:
            cache.pop()


def said(text):
    """What `lardsim audit` prints of these bytes, without a line feed."""
    *lines, rest = text.decode("latin-1").split("\n")
    judge = None
    number = 0
    try:
        for number, line in enumerate(lines, 1):
            if judge is None:
                judge = Judge(heading_of(line))
                continue
            file = file_of(line) if judge.records == 0 else None
            if file:
                judge.add_file(*file)
            else:
                judge.feed(record_of(line))
        if rest or judge is None:
            number += 1
            raise Refused("not a line of the schedule")
    except Refused as why:
        return f"line {number}: {why}"
    return f"records {judge.records}"
