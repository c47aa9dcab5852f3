"""Runs of the policy lab and their figures: what tools/policies prints and draws.

A run is one policy over one trace at one number of nodes, by `lardsim lab POLICY`. Its figures can be added to those of other
runs.
"""

import re
import subprocess

import lab_trace

REQUEST = re.compile(r"([1-9]\d*) (/[!-~]*) (?:n([1-9]\d?) (hit|miss)|full)", re.ASCII)


class RunError(Exception):
    """A run that has no figures."""


def knows_lab(program):
    """Whether a program has the command `lab`."""
    try:
        done = subprocess.run([program, "lab", "rr"], input=b"lab 1\ngo\n", capture_output=True, check=False)
    except OSError:
        return False
    return done.returncode == 0 and done.stdout.startswith(b"lab rr nodes 2 ")


def fitted(trace, changes, window):
    """The trace with these numbers of its configuration, and with the `done` that go with them: those of a window, where one is
    given, of at most as many requests as there is room for; else its own, without those of requests that are full."""
    config = {**trace.config, **changes}
    lab_trace.check(lab_trace.whole(config), RunError)
    most = lab_trace.room(lab_trace.whole(config))
    events = lab_trace.windowed(trace.events, min(window, most)) if window else trace.events
    return lab_trace.Trace(config, trace.files, lab_trace.without_full(events, most)[0])


def call(program, policy, trace):
    """The lines that the program writes of a trace, and what it says on standard error, which is nothing where it is done."""
    done = subprocess.run([program, "lab", policy], input=trace.text().encode("ascii"), capture_output=True, check=False)
    said = done.stderr.decode().strip()
    return done.stdout.decode("ascii").splitlines(), said or (f"status {done.returncode}" if done.returncode else "")


def run(program, policy, trace):
    """The lines of a run."""
    lines, said = call(program, policy, trace)
    if said:
        raise RunError(f"lab {policy}: {said}")
    return lines


class Figures:
    """What is counted of runs of one policy at one number of nodes. By node: requests, hits, the greatest load, and the sum of
    its loads at all moments. A moment is behind each request that goes to a node."""

    def __init__(self, nodes):
        self.requests = self.full = self.moments = 0
        self.uneven = 0.0  # the sum over the moments of the greatest load over the mean
        self.asked, self.hits, self.peaks, self.loads = ([0] * nodes for _ in range(4))

    def add(self, other):
        """The figures of another run, as `vars` gives them."""
        for name in ("requests", "full", "moments", "uneven"):
            setattr(self, name, getattr(self, name) + other[name])
        for name in ("asked", "hits", "loads"):
            setattr(self, name, [one + more for one, more in zip(getattr(self, name), other[name])])
        self.peaks = [max(pair) for pair in zip(self.peaks, other["peaks"])]

    def misses(self):
        return sum(self.asked) - sum(self.hits)

    def share_of_misses(self):
        return self.misses() / sum(self.asked) if sum(self.asked) else 0.0

    def greatest_over_mean(self):
        return self.uneven / self.moments if self.moments else 0.0

    def load_of(self, node):
        """The mean load of a node over the moments."""
        return self.loads[node - 1] / self.moments if self.moments else 0.0


def figures_of(trace, lines, skip):
    """The figures of a run, by its lines. The first so many requests fill the caches, and are not counted."""
    counts = Counting(lab_trace.whole(trace.config).nodes, skip)
    told = iter(lines[1:])
    for kind, value in trace.events:
        if kind == "req":
            counts.request(next(told, ""), value)
        elif kind == "done":
            counts.done(value)
    if list(told) != counts.totals():
        raise RunError("the totals are not those of the lines before them")
    return counts.figures


class Counting:
    """Counts the lines of a run, and the loads that its events make of them."""

    def __init__(self, nodes, skip):
        self.figures, self.skip = Figures(nodes), skip
        self.all, self.hits, self.peaks, self.loads = ([0] * nodes for _ in range(4))
        self.made, self.full, self.open = 0, 0, {}

    def request(self, line, path):
        found = REQUEST.fullmatch(line)
        self.made += 1
        if not found or (int(found[1]), found[2]) != (self.made, path) or int(found[3] or 1) > len(self.all):
            raise RunError(f"`{line}` is not the line of request {self.made}")
        counted = self.figures if self.made > self.skip else None
        if counted:
            counted.requests += 1
            counted.full += found[3] is None
        if found[3] is None:
            self.full += 1
            return
        node, is_hit = int(found[3]) - 1, found[4] == "hit"
        self.open[self.made] = node
        self.all[node] += 1
        self.hits[node] += is_hit
        self.loads[node] += 1
        self.peaks[node] = max(self.peaks[node], self.loads[node])
        if counted:
            self.moment(node, is_hit)

    def moment(self, node, is_hit):
        it = self.figures
        it.asked[node] += 1
        it.hits[node] += is_hit
        it.moments += 1
        it.loads = [total + load for total, load in zip(it.loads, self.loads)]
        it.peaks = [max(pair) for pair in zip(it.peaks, self.loads)]
        it.uneven += max(self.loads) * len(self.loads) / sum(self.loads)

    def done(self, number):
        self.loads[self.open.pop(number)] -= 1

    def totals(self):
        lines = [f"requests {self.made} hits {sum(self.hits)} full {self.full}"]
        rows = zip(self.all, self.hits, self.peaks)
        return lines + [f"n{n} requests {asked} hits {hits} peak {peak}" for n, (asked, hits, peak) in enumerate(rows, 1)]
