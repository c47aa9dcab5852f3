"""The choice of a node, as docs/RULES.md has it: what a report tells of loads, sets and queues, and what the rules choose there.

A Ledger takes the records of a report in order. Before an `assigned` it gives the choice of the rules, with the reason and
the figures that it rests on. Loads and costs are whole numbers, in 840ths of a connection; `connections` spells them.
"""

from types import SimpleNamespace

from report import number_of

WHOLE = 840          # the load of a connection, so that a share of a batch of 1 to 8 is a whole number
SHORT_QUEUE = 5      # with fewer jobs at its disk than that, a node keeps the requests of its connections
OVER = float("inf")  # the cost of a node whose load is above `over`


def connections(units):
    """So many 840ths, in connections: 3, or 3 1/8."""
    if units == OVER:
        return "infinite"
    whole, rest = divmod(units, WHOLE)
    if not rest:
        return f"{whole:,}"
    bottom = next(n for n in (2, 3, 4, 5, 6, 7, 8, WHOLE) if rest * n % WHOLE == 0)
    part = f"{rest * bottom // WHOLE}/{bottom}"
    return f"{whole:,} {part}" if whole else part


class Ledger:
    """Loads, sets of nodes, those that are closed, and the time, as the records so far tell them."""

    def __init__(self, config):
        self.config, self.now = config, 0
        self.nodes = range(1, config["nodes"] + 1)
        self.closed = set()  # no first choice, and nobody who joins a set, is one of these
        self.loads = dict.fromkeys(self.nodes, 0)
        self.homes = {}   # the node that each admitted connection was first assigned to
        self.shares = {}  # of each admitted connection: (node, load) of each request of its batch that another node serves
        self.sets = {}    # the nodes that serve each path
        self.dates = {}   # when the set of a path last changed

    # ---- records

    def take(self, record):
        """One record more. A report that no program wrote may name nodes that are not there: they have no load."""
        if record.kind == "clock":
            self.now = record.time
        elif record.kind == "released":
            self.close_shares(record.connection)
            self.charge(self.homes.pop(record.connection, None), -WHOLE)
        elif record.kind == "batchover":
            self.close_shares(record.connection)
        elif record.kind == "assigned first":
            self.charge(record.node, WHOLE)
            self.homes[record.connection] = record.node
            self.change(record.path, record.add, record.remove)
        elif record.kind == "assigned later":
            self.open_share(record)
            self.change(record.path, record.add, "-")
        elif record.kind == "closed":
            self.close(number_of(record.place))

    def close(self, node):
        """A node leaves every set, which does not date them."""
        self.closed.add(node)
        for members in self.sets.values():
            members.discard(node)

    def charge(self, node, units):
        if node in self.loads:
            self.loads[node] += units

    def open_share(self, record):
        if record.connection in self.homes and record.node != self.homes[record.connection]:
            share = record.node, WHOLE // max(record.size, 1)
            self.shares.setdefault(record.connection, []).append(share)
            self.charge(*share)

    def close_shares(self, connection):
        for node, units in self.shares.pop(connection, []):
            self.charge(node, -units)

    def change(self, path, add, remove):
        members = self.sets.setdefault(path, set())
        for node, does in ((add, members.add), (remove, members.discard)):
            if node != "-":
                does(int(node))
                self.dates[path] = self.now

    # ---- choices

    def members(self, path):
        return sorted(self.sets.get(path, set()) & set(self.nodes))

    def open_nodes(self):
        return [node for node in self.nodes if node not in self.closed]

    def least(self, nodes):
        return min(nodes, key=lambda node: (self.loads[node], node))

    def first(self, path):
        """The choice for the first request of a connection: LARD with replication, over open nodes. None where there is none."""
        nodes = self.open_nodes()
        if not nodes:
            return None
        members, low, high = self.members(path), self.config["low"] * WHOLE, self.config["high"] * WHOLE
        least = self.least(nodes)
        choice = SimpleNamespace(node=least, add=least, remove="-", reason="nobody", load=self.loads[least], among=None, unchanged=0)
        if not members:
            return choice
        choice.among = self.least(members)
        load, has_room = self.loads[choice.among], self.loads[least] < low
        choice.reason = "twice high" if load >= 2 * high else "above high" if load > high and has_room else "least"
        choice.node = choice.among if choice.reason == "least" else least
        choice.load = self.loads[choice.node]
        choice.add = "-" if choice.node in members else choice.node
        choice.unchanged = self.now - self.dates.get(path, 0)
        if len({*members, choice.node}) > 1 and choice.unchanged > self.config["age"]:
            choice.remove = max(members, key=lambda node: (self.loads[node], node))
        return choice

    def later(self, connection, path, queue):
        """The choice for a further request of a connection, whose node's disk had so many jobs: by costs, where they are asked."""
        home, members = self.homes.get(connection), self.members(path)
        if home not in self.loads:
            return None
        choice = SimpleNamespace(node=home, home=home, reason="member", costs={})
        if home not in members:
            choice.reason = "short queue" if queue < SHORT_QUEUE else "costs"
        if choice.reason == "costs":
            choice.costs = {node: self.costs(node, node in members) for node in sorted({home, *members})}
            choice.node = min(choice.costs, key=lambda node: (sum(choice.costs[node]), node != home, node))
        choice.add = home if choice.node == home and home not in members and home not in self.closed else "-"
        return choice

    def costs(self, node, is_member):
        """Balancing, locality and replacement."""
        load, (idle, over, miss) = self.loads[node], (self.config[key] * WHOLE for key in ("idle", "over", "miss"))
        balancing = 0 if load < idle else OVER if load > over else load - idle
        return balancing, WHOLE if is_member else miss, 0 if load < idle or is_member else miss
