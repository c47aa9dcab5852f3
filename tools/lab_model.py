"""The policy lab by its definitions, in Python and apart from the program: what tools/check-lab compares `lardsim lab` with.

Nothing here is proved, and no tool for users calls it.

    lines, refused = run("lard", lab_trace.parse(text, name))

gives the lines of the report, and (line, why) of a line that is refused, or None. For the order of faults see `Lab.event`.
"""

from collections import OrderedDict

import lab_trace

MOST_CACHED = 65536  # files in a cache


class Fault(Exception):
    """An event that is refused. The lab is as before."""


class Cache:
    """A recency list: the files of a node's cache, of which the first was asked for longest ago."""

    def __init__(self, size):
        self.size, self.used, self.files = size, 0, OrderedDict()

    def ask(self, path, size):
        """Whether a file is there. It comes to the end; where it was not there, it is put, unless it is larger than the cache."""
        if path in self.files:
            self.files.move_to_end(path)
            return True
        if size <= self.size:
            self.files[path] = size
            self.used += size
        while self.used > self.size or len(self.files) > MOST_CACHED:
            self.used -= self.files.popitem(last=False)[1]
        return False


class Lab:
    """A trace's requests, their nodes, hits and loads, by one policy. Requests and nodes are numbered from 1."""

    def __init__(self, policy, config):
        self.policy, self.config = policy, config
        self.choose = {"rr": self.in_turn, "hash": self.by_path, "lard": self.by_server, "lardr": self.by_set}[policy]
        self.nodes = range(1, config.nodes + 1)
        self.loads, self.peaks, self.asked, self.hits = ({n: 0 for n in self.nodes} for _ in range(4))
        self.caches = {n: Cache(config.cache) for n in self.nodes}
        self.files, self.open = {}, {}  # sizes by path; the node of each request that is open
        self.made = self.full = self.now = 0
        self.servers, self.sets, self.dates = {}, {}, {}  # by path: for `lard`; for `lardr`, and when each set last changed

    def heading(self):
        it = self.config
        return f"lab {self.policy} nodes {it.nodes} low {it.low} high {it.high} age {it.age} cache {it.cache}"

    def event(self, kind, value):
        """The line of a request, else None. The causes of a Fault, in their order: a path without a file; a request that is not
        open; one request too many."""
        if kind == "req":
            return self.request(value)
        if kind == "done":
            if value not in self.open:
                raise Fault(f"request {value} is not open")
            self.loads[self.open.pop(value)] -= 1
        else:
            self.now += value
        return None

    def request(self, path):
        if path not in self.files:
            raise Fault("no such file")
        if self.made == lab_trace.MOST_REQUESTS:
            raise Fault("limit requests")
        self.made += 1
        if len(self.open) == lab_trace.room(self.config):
            self.full += 1
            return f"{self.made} {path} full"
        node = self.choose(path)
        self.open[self.made] = node
        self.loads[node] += 1
        self.peaks[node] = max(self.peaks[node], self.loads[node])
        is_hit = self.caches[node].ask(path, self.files[path])
        self.asked[node] += 1
        self.hits[node] += is_hit
        return f"{self.made} {path} n{node} {'hit' if is_hit else 'miss'}"

    def totals(self):
        yield f"requests {self.made} hits {sum(self.hits.values())} full {self.full}"
        for n in self.nodes:
            yield f"n{n} requests {self.asked[n]} hits {self.hits[n]} peak {self.peaks[n]}"

    # ---- the policies

    def least(self, nodes):
        """The least loaded of these nodes, the lowest number at a tie."""
        return min(nodes, key=lambda n: (self.loads[n], n))

    def is_overloaded(self, n):
        """n.load > T_high && some node has load < T_low, || n.load >= 2 T_high (ASPLOS 1998)"""
        load, it = self.loads[n], self.config
        return load > it.high and any(self.loads[m] < it.low for m in self.nodes) or load >= 2 * it.high

    def in_turn(self, _):
        return 1 + (self.made - 1) % self.config.nodes

    def by_path(self, path):
        h = 0
        for byte in path.encode("ascii"):
            h = (31 * h + byte) % 2**32
        return 1 + h % self.config.nodes

    def by_server(self, path):
        """Basic LARD: a target keeps its server, unless that is overloaded."""
        server = self.servers.get(path)
        if server is None or self.is_overloaded(server):
            self.servers[path] = server = self.least(self.nodes)
        return server

    def by_set(self, path):
        """LARD with replication."""
        before = set(self.sets.setdefault(path, set()))
        if not before:
            chosen, removed = self.least(self.nodes), None
        else:
            chosen = self.least(before)
            if self.is_overloaded(chosen):
                chosen = self.least(self.nodes)
            removed = None
            if len(before | {chosen}) > 1 and self.now - self.dates[path] > self.config.age:
                removed = max(before, key=lambda n: (self.loads[n], n))
        after = (before | {chosen}) - {removed}
        if after != before:
            self.sets[path], self.dates[path] = after, self.now
        return chosen


def run(policy, trace):
    """The lines of the report, and the line that is refused with why, or None."""
    lab = Lab(policy, lab_trace.whole(trace.config))
    lab.files = dict(trace.files)
    lines = [lab.heading()]
    for at, (kind, value) in enumerate(trace.events, trace.head + 1):
        try:
            line = lab.event(kind, value)
        except Fault as fault:
            return lines, (at, str(fault))
        if line:
            lines.append(line)
    return [*lines, *lab.totals()], None
