"""The loops of a function, and names for its blocks that outlive a recompilation as far as its nest of loops does.

A loop's name is its place in the nest: 2.1 is the first loop in the second, in the order of heads. A block's name is
the loop that it is in and its number among that loop's own blocks, inner loops left out: 2.1:3. Blocks in no loop are
those of 0. A region (a loop, or 0) has a shape: a sum of its own blocks by mnemonics and constants, and of how they lead
to each other; registers, addresses and places on the stack are not in it. Nothing here is trusted: a function whose code
isn't the table's is refused, and shapes only tell where its loops have gone."""
import hashlib
import re


class Loop:
    def __init__(self, head, body, back, parent):
        self.head, self.body, self.back, self.parent = head, body, back, parent
        self.name, self.inner, self.own, self.shape = "", [], [], ""


def components(nodes, successors):
    """Strongly connected sets of blocks that hold a cycle (Tarjan's, without recursion)."""
    order, low, stack, waiting, found = {}, {}, [], set(), []
    for root in sorted(nodes):
        if root in order:
            continue
        path = [(root, iter(successors(root)))]
        order[root] = low[root] = len(order)
        stack.append(root)
        waiting.add(root)
        while path:
            x, rest = path[-1]
            for s in rest:
                if s not in order:
                    order[s] = low[s] = len(order)
                    stack.append(s)
                    waiting.add(s)
                    path.append((s, iter(successors(s))))
                    break
                if s in waiting:
                    low[x] = min(low[x], order[s])
            else:
                path.pop()
                if path:
                    low[path[-1][0]] = min(low[path[-1][0]], low[x])
                if low[x] == order[x]:
                    at = stack.index(x)
                    members = set(stack[at:])
                    del stack[at:]
                    waiting -= members
                    if len(members) > 1 or x in successors(x):
                        found.append(members)
    return found


def find_loops(f):
    """The nest. A loop that is entered at several places (remainders of vectorised loops are) has the lowest of them as
    its head: what a bound needs is only that every cycle holds an edge that is bounded."""
    f.loops, back_edges = {}, set()

    def nest(nodes, parent):
        def successors(b):
            return [s for s in f.blocks[b].successors if s in nodes and (b, s) not in back_edges]

        for members in components(nodes, successors):
            entered = [b for b in members if b == f.entry or any(p not in members for p in f.before[b])]
            head = min(entered)
            back = [(b, head) for b in f.before[head] if b in members]
            f.loops[head] = Loop(head, members, back, parent)
            back_edges.update(back)
            nest(members, head)

    nest(set(f.blocks), None)
    f.loops = dict(sorted(f.loops.items()))
    name_all(f)


def name_all(f):
    """Names of loops and blocks, both ways."""
    top = Loop(None, set(f.blocks), [], None)
    top.name = "0"
    f.regions = {"0": top}
    for head, loop in f.loops.items():
        outer = top if loop.parent is None else f.loops[loop.parent]
        outer.inner.append(loop)
        number = len(outer.inner)
        loop.name = f"{number}" if outer is top else f"{outer.name}.{number}"
        f.regions[loop.name] = loop
    f.names, f.places = {}, {}
    for region in f.regions.values():
        inside = set().union(*(loop.body for loop in region.inner)) if region.inner else set()
        region.own = sorted(region.body - inside)
        for number, b in enumerate(region.own, 1):
            f.names[b] = f"{region.name}:{number}"
            f.places[f.names[b]] = b
    for region in f.regions.values():
        region.shape = shape(f, region)


def plain(mnemonic, operands):
    """An instruction without registers, addresses and places on the stack."""
    if mnemonic.startswith("j") or mnemonic == "call":
        return mnemonic
    return mnemonic + "".join(re.findall(r"\$0x[0-9a-f]+", operands))


def shape(f, region):
    """The region's own blocks, and where they lead: to one of these by its number, into an inner loop by that one's, or
    out of the region."""
    number = {b: f"b{k}" for k, b in enumerate(region.own)}
    for k, loop in enumerate(region.inner):
        number.update({b: f"l{k}" for b in loop.body})
    told = []
    for b in region.own:
        block = f.blocks[b]
        lines = [plain(m, o) for _, m, o in block.instructions if m not in ("nop", "nopw", "nopl", "data16", "cs", "xchg")]
        told.append((lines, [number.get(s, "out") for s in block.successors], block.call))
    return hashlib.sha256(repr(told).encode()).hexdigest()[:8]


def matched(f, known):
    """Where the regions of a table, {name: shape}, are in the function: {old name: new name}. First those of the same
    name and shape, then those whose shape only one region has that is left, in both; a loop in a loop that was found goes
    before one elsewhere."""
    found = {old: old for old, sum_ in known.items() if old in f.regions and f.regions[old].shape == sum_}
    for within in (True, False):
        for old in [name for name in known if name not in found]:
            free = [r.name for r in f.regions.values() if r.name not in found.values() and r.shape == known[old]]
            outer = found.get(old.rpartition(".")[0])
            if within:
                free = [name for name in free if outer and name.rpartition(".")[0] == outer]
            rivals = [name for name in known if name not in found and known[name] == known[old]]
            if len(free) == 1 and len(rivals) == 1:
                found[old] = free[0]
            elif free and len(free) == len(rivals):  # as many of one shape as before: in their order
                found[old] = sorted(free, key=place_key)[sorted(rivals, key=place_key).index(old)]
    return found


def place_key(name):
    return [int(part) for part in name.split(".")]


def listing(f):
    """The function's blocks with their names, addresses and jumps, to write a table by."""
    for b, block in f.blocks.items():
        region = f.names[b].partition(":")[0]
        head = f"<- head of {region}, shape {f.regions[region].shape}" if b in f.loops else ""
        to = " ".join(f.names[s] for s in block.successors) or "returns"
        yield f"{f.names[b]:10} {b:6x} {block.size:3}  -> {to:30} {block.call or ''} {head}"
        for address, mnemonic, operands in block.instructions:
            yield f"{'':14}{address:6x}  {mnemonic} {operands}"
