"""Good weights for the rows, by linear programming. Nothing that is found here is believed: duality.py looks again.
Needs python3-scipy of Debian, and is needed only where the code or the table has changed."""
from fractions import Fraction
from math import ceil
from graph import END
from machine import Fail
from table import UNITS

# Weights are rounded up to this part of one.
PART = 96


def reached(g, never):
    """The edges that a way from the entry can take."""
    leaving = {}
    for k, edge in enumerate(g.edges):
        if k not in never:
            leaving.setdefault(edge[0], []).append(k)
    seen, todo, found = {g.entry}, [g.entry], []
    while todo:
        for k in leaving.get(todo.pop(), []):
            found.append(k)
            if g.edges[k][1] not in seen:
                seen.add(g.edges[k][1])
                todo.append(g.edges[k][1])
    if END not in seen:
        raise Fail(f"{g.top}: no way reaches its end")
    return sorted(found)


def weights(g, rows, never, cost, points):
    """Weights that make the bound least, in the mean over some calls; None where there are none."""
    import numpy
    from scipy.optimize import linprog
    from scipy.sparse import coo_matrix

    live = reached(g, never)
    place, number = {k: x for x, k in enumerate(live)}, {}
    for k in live:
        for node in g.edges[k][:2]:
            number.setdefault(node, len(number))
    entries = []
    for x, k in enumerate(live):
        u, v = g.edges[k][:2]
        if u != v:
            entries += [(x, number[u], 1), (x, number[v], -1)]
    for j, row in enumerate(rows):
        entries += [(place[k], len(number) + j, -times) for k, times in row.counts.items() if k in place]
    across, down, values = ([e[1] for e in entries], [e[0] for e in entries], [e[2] for e in entries])
    matrix = coo_matrix((values, (down, across)), shape=(len(live), len(number) + len(rows))).tocsr()
    aim = numpy.zeros(len(number) + len(rows))
    aim[number[END]], aim[number[g.entry]] = 1, -1
    for j, row in enumerate(rows):
        aim[len(number) + j] = sum(k * UNITS[u](p) for p in points for u, k in row.limit.items()) / len(points)
    sides = [-cost.get(g.edges[k][0], 0) for k in live]
    box = [(0, 0) if node == g.entry else (None, None) for node in number] + [(0, None)] * len(rows)
    for options in ({"presolve": False}, {}):  # HiGHS 1.2 calls some of these infeasible after its presolve
        found = linprog(aim, A_ub=matrix, b_ub=sides, bounds=box, method="highs-ds", options=options)
        if found.status == 0:
            raw = found.x[len(number) :]
            return [Fraction(ceil(y * PART - 1e-6), PART) if y > 1e-9 else Fraction(0) for y in raw]
    return None
