"""The bounds of each exported function: instructions, and calls and bytes of memset and memcpy, which are counted apart.
Trusted: as machine.py says, the lines of loops.table, and that the number of bytes is what the block that calls puts into
edx or rdx as a constant, or what a line 'size' says."""
import json
import re
from fractions import Fraction
import duality
from graph import Graph, behind, next_nodes, rows_of, unbounded
from loops import find_loops
from machine import Fail, functions
from table import Table, UNITS


class Call:
    """The facts of a call. N is M for an import."""

    def __init__(self, **facts):
        self.n, self.N, self.h, self.level, self.gone, self.reads, self.survivors = 4, 4096, 32, 32, 4096, 0, 0
        self.__dict__.update(facts)


# What a function can be asked at most, for n = 4, N = 4,096, h = 32: each bound is largest at one of these. Survivors of
# all levels and darts gone are not free of each other: (h+1)N survivors where none is gone, N of them where all are.
EVERY = [Call(gone=g, survivors=s) for g, s in ((4096, 4096), (4096, 32 * 4096), (0, 33 * 4096))]
ACCEPTED_WORST = {
    "zg_read": [Call(gone=4095, reads=8191)],
    "zg_read_by_levels": [Call(gone=4095, reads=8191)],
    "zg_unfold": [Call(gone=0, reads=20480), Call(gone=4096, reads=8192)],
    "zg_import": [Call(n=2, N=2048)],
    "zg_export": [Call(n=2)],
}
ANY_WORST = {
    **ACCEPTED_WORST,
    "zg_read": [Call(reads=8193)],
    "zg_read_by_levels": [Call(reads=8193)],
    "zg_unfold": [Call(reads=167792640)],
}
MODES = ("accepted", "any")


def worst_calls(top, mode):
    return (ACCEPTED_WORST if mode == "accepted" else ANY_WORST).get(top, EVERY)


def worst(bound, top, mode):
    """The most that the bound says."""
    return max(duality.value(bound, call) for call in worst_calls(top, mode))


class Tool:
    """The archives' functions, the table, and the weights that were found before."""

    def __init__(self, archives, table, weights):
        self.functions = functions(archives)
        for f in self.functions.values():
            find_loops(f)
        self.exported = sorted(name for name in self.functions if name.startswith("zg_"))
        self.table, self.weights_name = Table(table), weights
        self.graphs = {}
        try:
            with open(weights, encoding="utf-8") as file:
                self.weights = json.load(file)
        except FileNotFoundError:
            self.weights = {}

    def changed(self):
        """Functions whose code isn't the table's."""
        return [name for name, f in self.functions.items() if self.table.codes.get(name) != f.code]

    def graph(self, top, mode):
        """The graph of a call, its rows, and the edges that are never taken."""
        if (top, mode) not in self.graphs:
            g = Graph(self.functions, top)
            rows, never = rows_of(g, self.table, mode == "accepted")
            self.graphs[top, mode] = (g, rows, never)
        return self.graphs[top, mode]

    def lost_conditions(self):
        """Lines that hold under a way of calls that no exported function has: their names have moved."""
        paths = [set(path) for top in self.exported for path, _ in self.graph(top, "any")[0].copies]
        for line in self.table.lines:
            for _, place in line.conditions:
                if not any(set(place) <= path for path in paths):
                    yield f"{line.told()} speaks of calls by {'/'.join(place)}, and there are none"

    def costs(self, top, what):
        """What each node costs: its instructions, the calls of the C library in it, or the bytes of those of constant
        size."""
        g = self.graph(top, "any")[0]
        if what == "instructions":
            return g.size
        if what == "calls":
            return {node: 1 for node, _ in g.external}
        return {node: size for node, _ in g.external if (size := self.bytes_at(node)) is not None}

    def bytes_at(self, node):
        """The constant that the call of memset or memcpy at a node has as its number of bytes."""
        path, b = node
        f = self.functions[path[-1].partition("(")[0]]
        found = None
        for _, mnemonic, operands in f.blocks[b].instructions:
            constant = re.match(r"\$0x([0-9a-f]+),%[er]dx$", operands)
            if mnemonic == "mov" and constant:
                found = int(constant[1], 16)
            elif re.search(r",?%(rdx|edx|dx|dl)$", operands) and not mnemonic.startswith(("cmp", "test")):
                found = None
        return found

    def bound(self, top, mode, what, weights=None):
        """The bound, from these weights or from those that were found before."""
        g, rows, never = self.graph(top, mode)
        if weights is None:
            kept = self.weights.get(f"{top} {mode} {what}", {})
            lost = set(kept) - {row.name for row in rows}
            if lost:
                raise Fail(f"{top}: weights for a line that isn't there (find new ones): {min(lost)}")
            weights = [Fraction(kept.get(row.name, 0)) for row in rows]
        found = duality.bound(g, rows, never, weights, self.costs(top, what))
        if found is None:
            raise Fail(f"{top}: the weights bound nothing (find new ones)")
        return found

    def all_bounded(self, top):
        """Fails where a way could go round a loop without end: no line bounds it."""
        free = unbounded(*self.graph(top, "any"))
        if free:
            raise Fail(f"{top}: loops without a line: " + ", ".join(f"{loop} of {f}" for f, loop in free))

    def whats(self, top):
        return ("instructions", "calls", "bytes") if self.graph(top, "any")[0].external else ("instructions",)

    def find(self, top):
        """New weights for a function; needs scipy."""
        import solve

        for mode in MODES:
            if mode == "accepted" and self.alike(top):
                continue
            g, rows, never = self.graph(top, mode)
            self.all_bounded(top)
            for what in self.whats(top) if mode == "any" else ("instructions",):
                found = solve.weights(g, rows, never, self.costs(top, what), worst_calls(top, mode))
                if found is None:
                    raise Fail(f"{top}: no weights bound it ({mode}, {what})")
                self.bound(top, mode, what, found)
                self.weights[f"{top} {mode} {what}"] = {row.name: str(y) for row, y in zip(rows, found) if y}

    def alike(self, top):
        """Has it no line that is of accepted calls alone?"""
        g = self.graph(top, "any")[0]
        return not any(line.accepted for _, f in g.copies for line in self.table.of.get(f.name, []))

    def save(self):
        with open(self.weights_name, "w", encoding="utf-8") as file:
            json.dump(self.weights, file, indent=0, sort_keys=True, ensure_ascii=False)
            file.write("\n")

    def instructions(self, top, mode):
        return self.bound(top, "any" if self.alike(top) else mode, "instructions")

    def calls(self, top):
        """Calls of memset and memcpy."""
        return self.bound(top, "any", "calls") if len(self.whats(top)) > 1 else {}

    def bytes(self, top):
        """The bytes that these set and copy: of constant sizes by weights, of others once for each place that calls, which
        must be in no loop."""
        if len(self.whats(top)) == 1:
            return {}
        found = dict(self.bound(top, "any", "bytes"))
        g, _, never = self.graph(top, "any")
        live = behind([g.entry], next_nodes(g, never))
        for node, _ in g.external:
            if node in live and self.bytes_at(node) is None:
                for unit, k in self.size_line(node).items():
                    found[unit] = found.get(unit, 0) + k
        return {unit: found[unit] for unit in UNITS if found.get(unit)}

    def size_line(self, node):
        path, b = node
        f = self.functions[path[-1].partition("(")[0]]
        name = f.names[b]
        if not name.startswith("0:"):
            raise Fail(f"{f.name}: a call of {f.blocks[b].call} of a size that isn't constant, in a loop: {name}")
        size = self.table.sizes.get((f.name, name))
        if size is None:
            raise Fail(f"{f.name}: no line says how many bytes {f.blocks[b].call} has at {name}")
        return size
