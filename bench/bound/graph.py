"""The graph of a call of an exported function: its blocks and those of all it calls, with a copy of a function for each
place that calls it. A call is a way through it from the entry to the end; each line of the table bounds how often that
way takes some edges. A function that calls itself is passed over at that call and may be run again from its end: the
table bounds how often."""
from collections import defaultdict
from machine import EXTERNAL, Fail
from table import Line, edges_of

END = ("end",)


class Graph:
    """Nodes are (path, block) with the path of calls from the exported function down; an edge is (node, node, path,
    edge of that path's function), the last two None where it is no edge of a function."""

    def __init__(self, functions, top):
        self.functions, self.top = functions, top
        self.size, self.edges, self.copies, self.external = {}, [], [], []
        self.entry = ((top,), functions[top].entry)
        self.add(top, (top,), END, (None, None))

    def add(self, name, path, after, seen):
        """A copy; its returns lead to the node after it, and are what the caller sees as its own edge."""
        f = self.functions[name]
        self.copies.append((path, f))
        again = any(block.call == name for block in f.blocks.values())
        for b, block in f.blocks.items():
            node = (path, b)
            self.size[node] = block.size
            if block.call and block.call not in EXTERNAL and block.call != name:
                self.add_call(node, block, path, after, seen)
                continue
            if block.call in EXTERNAL:
                self.external.append((node, block.call))
            for s in dict.fromkeys(block.successors):
                self.edges.append((node, (path, s), path, (b, s)))
            if not block.successors:
                self.edges.append((node, after, *seen))
                if again:
                    self.edges.append((node, (path, f.entry), path, (None, f.entry)))

    def add_call(self, node, block, path, after, seen):
        callee = self.functions.get(block.call)
        if callee is None:
            raise Fail(f"{path[-1]} calls {block.call}, which is in no archive")
        if any(part.partition("(")[0] == block.call for part in path):
            raise Fail(f"{block.call} is called again below itself: {'/'.join(path)}")
        here = self.functions[path[-1].partition("(")[0]]
        below = path + (f"{block.call}({here.names[block.address]})",)
        self.edges.append((node, (below, callee.entry), below, (None, callee.entry)))
        if block.successors:
            to = block.successors[0]
            self.add(block.call, below, (path, to), (path, (block.address, to)))
        else:
            self.add(block.call, below, after, seen)


class Row:
    """A line for one copy: how often it counts each edge of the graph, and the limit."""

    def __init__(self, line, path, counts, name):
        self.line, self.path, self.counts, self.name = line, path, counts, name
        self.limit = line.limit


def edges_below(g, path, f, term):
    """The edges that a term counts, each with the copy that it is in: this one, or those of a function that it calls."""
    if term[4] is None:
        return [(path, edge) for edge in edges_of(f, term)]
    called = [(p, c) for p, c in g.copies if c.name == term[4] and p[: len(path)] == path]
    if not called:
        raise Fail(f"{f.name} doesn't call {term[4]}")
    return [(p, edge) for p, c in called for edge in edges_of(c, term)]


def rows_of(g, table, accepted):
    """The rows, and the edges that are never taken."""
    at = defaultdict(list)
    for k, (_, _, path, edge) in enumerate(g.edges):
        if edge is not None:
            at[path, edge].append(k)
    rows, never = [], set()
    for path, f in g.copies:
        for line in table.of.get(f.name, []):
            if not line.holds_in(path, accepted):
                continue
            counts = defaultdict(int)
            for term in line.terms:
                for below, edge in edges_below(g, path, f, term):
                    for k in at[below, edge]:
                        counts[k] += term[0]
            if line.limit:
                rows.append(Row(line, path, dict(counts), f"{'/'.join(path)} {line.text}"))
                if line.apart:
                    rows[-1].apart = [{k for e in edges_below(g, path, f, term) for k in at[e]} for term in line.terms]
            else:
                never.update(counts)
    return rows + together(g, rows, never), never


def behind(starts, next_nodes):
    """All nodes that are reached."""
    seen, todo = set(starts), list(starts)
    while todo:
        for node in next_nodes[todo.pop()]:
            if node not in seen:
                seen.add(node)
                todo.append(node)
    return seen


def next_nodes(g, without):
    found = defaultdict(set)
    for k, (u, v, _, _) in enumerate(g.edges):
        if k not in without:
            found[u].add(v)
    return found


def together(g, rows, never):
    """More rows: of loops with the same limit that no way takes both of, the sum has that limit too. Seen in the graph
    alone: no edge of one can be followed, however much later, by an edge of another."""
    live = [{k for k in row.counts if k not in never} for row in rows]
    after = [edges_after(g, rows, never, edges) for edges in live]
    from_ = [{g.edges[k][0] for k in edges} for edges in live]
    by_limit = defaultdict(list)
    for j, row in enumerate(rows):
        by_limit[tuple(sorted(row.limit.items()))].append(j)
    found = []
    for same in by_limit.values():
        apart = {j: {i for i in same if i != j and not after[i] & from_[j] and not after[j] & from_[i]} for j in same}
        for group in cliques(set(), set(same), set(), apart):
            counts = defaultdict(int)
            for j in group:
                for k, times in rows[j].counts.items():
                    counts[k] += times
            first = rows[min(group)].line
            name = " with ".join(rows[j].name for j in sorted(group))
            line = Line(first.function, [], False, [], first.limit, "one of several ways", "path", name, 0)
            found.append(Row(line, None, dict(counts), name))
    return found


def edges_after(g, rows, never, edges):
    """The nodes that can come after these edges. Where every way to them goes by the first edge of an `apart`, none of
    its second edge can come."""
    shut = set(never)
    for row in rows:
        if row.line.apart and edges:
            first, second = row.apart
            before = behind([g.entry], next_nodes(g, never | first))
            if not any(g.edges[k][0] in before for k in edges):
                shut |= second
    return behind({g.edges[k][1] for k in edges}, next_nodes(g, shut))


def cliques(chosen, left, done, apart):
    """The largest sets of rows that exclude each other, two at least."""
    if not left and not done and len(chosen) > 1:
        yield chosen
    for v in sorted(left):
        yield from cliques(chosen | {v}, left & apart[v], done & apart[v], apart)
        left, done = left - {v}, done | {v}


def unbounded(g, rows, never):
    """Loops round which a way could go without end: (function, loop). These have no line."""
    leads = next_nodes(g, {k for row in rows for k in row.counts} | never)
    found = set()
    for path, f in g.copies:
        for head, loop in f.loops.items():
            if (path, head) in behind(leads[path, head], leads):
                found.add((f.name, loop.name))
    return sorted(found)
