"""Bounds from weights, in fractions: no solver is believed.

A call is a way through the graph. Give each row of the table a weight y, zero or more. Let an edge cost the instructions
of the block that it leaves, less, for each row that counts it, y times how often. If no cycle gains then, the dearest
way costs a number C, and every call takes at most C plus the sum of y times the rows' limits: what was taken off is, by
the limits, at most that. C is found again here, and each edge is looked at again behind it (`dearest`)."""
from collections import defaultdict, deque
from fractions import Fraction
from graph import END
from table import UNITS


def dearest(g, rows, never, weights, cost):
    """What the dearest way costs, or None where a cycle gains. Costs are of nodes; weights of rows."""
    price = {k: Fraction(cost.get(u, 0)) for k, (u, _, _, _) in enumerate(g.edges) if k not in never}
    for row, y in zip(rows, weights):
        if y:
            for k, times in row.counts.items():
                if k in price:
                    price[k] -= y * times
    leaving = defaultdict(list)
    for k in price:
        leaving[g.edges[k][0]].append(k)
    total, queue, waiting, raised = {g.entry: Fraction(0)}, deque([g.entry]), {g.entry}, defaultdict(int)
    while queue:
        u = queue.popleft()
        waiting.discard(u)
        for k in leaving[u]:
            v, value = g.edges[k][1], total[u] + price[k]
            if v not in total or value > total[v]:
                total[v] = value
                raised[v] += 1
                if raised[v] > len(g.size) + 2:
                    return None
                if v not in waiting:
                    queue.append(v)
                    waiting.add(v)
    for k, p in price.items():
        u, v = g.edges[k][:2]
        if u in total:
            assert total[v] >= total[u] + p, "an edge is dearer than was found"
    return total.get(END)


def bound(g, rows, never, weights, cost):
    """The bound as {unit: coefficient}, or None where the weights don't bound the call."""
    constant = dearest(g, rows, never, weights, cost)
    if constant is None:
        return None
    found = defaultdict(Fraction)
    found["1"] = constant
    for row, y in zip(rows, weights):
        for unit, k in row.limit.items():
            found[unit] += y * k
    return {unit: found[unit] for unit in UNITS if found[unit]}


def value(bound_, call):
    """What it says for a call."""
    return sum(k * UNITS[unit](call) for unit, k in bound_.items())
