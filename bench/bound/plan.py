"""What the search is given: the blocks of the library in its program, the edges that the graph has, and for each function
its bounds and the lines that every call is held to."""
import shutil
import subprocess
from collections import defaultdict
from machine import Fail
from table import edges_of

# The jobs by their names in tests/call.c.
JOBS = {
    "zg_version": "version",
    "zg_check_base": "check_base",
    "zg_check": "check",
    "zg_add": "add",
    "zg_marks_of": "marks",
    "zg_read": "read",
    "zg_read_by_levels": "bylevels",
    "zg_unfold": "unfold",
    "zg_unfold_all": "unfold_all",
    "zg_row": "row",
    "zg_survivors": "survivors",
    "zg_mark_cells": "mark",
    "zg_take": "take",
    "zg_write": "write",
    "zg_decimation": "decimation",
    "zg_census": "census",
    "zg_import": "import",
    "zg_export": "export",
    "zg_join": "join",
    "zg_rebase": "rebase",
    "zg_regions": "regions",
}


def numbers(tool):
    """Each block's number: (function, block) -> number."""
    blocks = [(name, b) for name, f in tool.functions.items() for b in f.blocks]
    return {block: k for k, block in enumerate(blocks, 1)}


def block_lines(tool, program):
    """Address, number and instructions of each block, in a program that the archives are linked into."""
    nm = next((n for n in ("x86_64-linux-gnu-nm", "nm") if shutil.which(n)), None)
    if not nm:
        raise Fail("no nm (Debian: binutils)")
    at = defaultdict(list)
    for line in subprocess.run([nm, program], capture_output=True, text=True, check=True).stdout.splitlines():
        fields = line.split()
        if len(fields) == 3 and fields[1] in "tT":
            at[fields[2]].append(int(fields[0], 16))
    for (name, b), number in numbers(tool).items():
        f = tool.functions[name]
        places = sorted(at[f.symbol])
        same = [g for g in tool.functions.values() if g.symbol == f.symbol]
        if len(places) != len(same):
            raise Fail(f"{program} has {len(places)} symbols {f.symbol}, the archives {len(same)}")
        yield f"{places[same.index(f)] + b:x} {number} {f.blocks[b].size}"


class Pairs:
    """An edge of a function, as the pairs of blocks that are seen one after the other when it is taken."""

    def __init__(self, tool):
        self.functions, self.number = tool.functions, numbers(tool)
        self.callers = defaultdict(list)
        for name, f in self.functions.items():
            for b, block in f.blocks.items():
                if block.call in self.functions:
                    self.callers[block.call].append((name, b))

    def returns(self, name, seen=()):
        """The blocks that are run last when a function returns, in it or in what it jumps to at its end."""
        found = []
        for b, block in self.functions[name].blocks.items():
            if not block.successors:
                inner = block.call in self.functions and block.call not in seen
                found += self.returns(block.call, (*seen, name)) if inner else [(name, b)]
        return found

    def of(self, name, edge):
        a, b = edge
        to = self.number[name, b]
        if a is None:
            callers = [self.number[c] for c in self.callers[name]]
            return [(c, to) for c in callers + ([0] if name.startswith("zg_") else [])]
        call = self.functions[name].blocks[a].call
        if call in self.functions:
            return [(self.number[last], to) for last in self.returns(call)]
        return [(self.number[name, a], to)]

    def all(self):
        """Every pair that the graph allows."""
        for name, f in self.functions.items():
            yield from self.of(name, (None, f.entry))
            for b, block in f.blocks.items():
                for s in block.successors:
                    yield from self.of(name, (b, s))


def summed(limit):
    return " ".join(f"{unit}={float(k)!r}" for unit, k in limit.items())


def held_lines(tool, top, pairs):
    """The lines that a call of a function is held to. Copies of a function can't be told apart in what is counted: lines
    of the same edges are held together to the sum of their limits, and one that some copy lacks isn't held."""
    g = tool.graph(top, "accepted")[0]
    groups, copies = {}, defaultdict(int)
    for path, f in g.copies:
        copies[f.name] += 1
    for path, f in g.copies:
        for line in tool.table.of.get(f.name, []):
            if line.holds_in(path, True):
                groups.setdefault((f.name, tuple(line.terms)), []).append(line)
    for (name, terms), lines in groups.items():
        if len(lines) != copies[name] or any(t[4] and copies[t[4]] != copies[name] for t in terms):
            continue
        limit, counts = defaultdict(int), defaultdict(int)
        for line in lines:
            for unit, k in line.limit.items():
                limit[unit] += k
        for term in terms:
            own = term[4] or name
            for edge in edges_of(tool.functions[own], term):
                for pair in pairs.of(own, edge):
                    counts[pair] += term[0]
        told = " ".join(f"{k}*{a}-{b}" for (a, b), k in sorted(counts.items()))
        word = "accepted-line" if any(line.accepted for line in lines) else "line"
        yield f"{word} {lines[0].number} {summed(limit)} : {told}"


def plan_lines(tool):
    pairs = Pairs(tool)
    every = sorted(set(pairs.all()))
    for k in range(0, len(every), 200):
        yield "edges " + " ".join(f"{a}-{b}" for a, b in every[k : k + 200])
    for top in tool.exported:
        if top not in JOBS:
            raise Fail(f"{top} has no job in plan.py")
        yield f"job {JOBS[top]} {top}"
        for mode in ("any", "accepted"):
            yield f"{mode} {summed(tool.instructions(top, mode))}"
        yield from held_lines(tool, top, pairs)
