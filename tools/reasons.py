"""Why a request is assigned to its node, in words: the choice of tools/rules.py beside what the report says."""

from report import count
from rules import OVER, SHORT_QUEUE, connections

OTHERWISE = "by what this report tells before, the rules choose otherwise"  # so no program wrote it


def why(ledger, record):
    """The reason of an `assigned`, by the records before it; and what it changes of the set of its path."""
    later = record.kind == "assigned later"
    choice = ledger.later(record.connection, record.path, record.queue) if later else ledger.first(record.path)
    told = record.node, record.add, "-" if later else record.remove
    if choice is None or told != (choice.node, str(choice.add), str("-" if later else choice.remove)):
        text = OTHERWISE
    else:
        text = later_choice(ledger, choice, record) if later else first_choice(ledger, choice, record.path)
        if later and choice.node == choice.home and choice.node in ledger.closed:
            text += "; it is closed, so it does not join those that serve this path"
    if record.add != "-":
        text += f"; node {record.add} serves it from now on"
    if not later and record.remove != "-":
        text += f"; node {record.remove} serves it no longer"
        if not text.startswith(OTHERWISE):
            text += (f", since the set was the same for {count(choice.unchanged, 'millisecond')}, above `age` ({ledger.config['age']:,}),"
                     f" and node {record.remove} has the most load of it")
    return text


def listed(nodes):
    return ", ".join(map(str, nodes))


def first_choice(ledger, choice, path):
    """LARD with replication. Where a node is closed it is said that the choice is among the open ones."""
    load, opened = connections(choice.load), "open " if ledger.closed else ""
    if choice.reason == "nobody":
        return f"nobody serves this path, and node {choice.node} has the least load{' of the open nodes' if opened else ''}, {load}"
    members, config = ledger.members(path), ledger.config
    if len(members) == 1:
        text = f"node {choice.among} alone serves this path"
    else:
        text = f"of the nodes that serve this path ({listed(members)}) node {choice.among} has the least load"
    text += f", with a load of {connections(ledger.loads[choice.among])}"
    if choice.reason == "least":
        return text
    if choice.reason == "twice high":
        text += f", twice `high` ({config['high']:,}) or more"
    else:
        text += f", above `high` ({config['high']:,}) while some {opened}node has less than `low` ({config['low']:,})"
    if choice.node == choice.among:
        return f"{text}; no {opened}node has less"
    return f"{text}; node {choice.node} has the least load of {'the open nodes' if opened else 'all'}, {load}"


def later_choice(ledger, choice, record):
    """The connection's own node, or the one of least cost."""
    own = f"node {choice.home}, which has the connection"
    if choice.reason == "member":
        return f"{own}, serves this path"
    jobs = f"the disk of {own}, had {count(record.queue, 'job')} when it asked"
    if choice.reason == "short queue":
        return f"{jobs}, fewer than {SHORT_QUEUE}"
    return f"{jobs}, and {least_cost(choice)}"


def least_cost(choice):
    """The costs of the chosen node, of the connection's own, and of the cheapest of the others."""
    order = sorted(choice.costs, key=lambda node: (node != choice.node, node != choice.home, sum(choice.costs[node]), node))
    text = f"of {count(len(order), 'candidate')} node {choice.node} costs least:"
    text += f" {cost(choice.costs[choice.node])} (balancing, locality, replacement)"
    for node in order[1:3]:
        text += f", node {node} {cost(choice.costs[node])}"
    return text


def cost(parts):
    if parts[0] == OVER:
        return "infinite, since its load is above `over`"
    return f"{' + '.join(map(connections, parts))} = {connections(sum(parts))}"
