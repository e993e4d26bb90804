"""Flow facts: what bounds the loops of the archives, with addresses, for a tool that knows a processor's times."""
import hashlib
from pathlib import Path
from bounds import worst_calls
from table import UNITS, edges_of, written

HEAD = """\
# Flow facts of these archives, for a tool that bounds the time of a call on some processor. Addresses are offsets from the
# first byte of a function; a function's section is .text.NAME.
#
# archive NAME SHA-256
# function NAME ARCHIVE       and below it its loops:
# loop HEAD from BLOCK ..     the head's address, and the blocks that lead back to it; irreducible: entered elsewhere too
# call EXPORTED               what holds of each call of it, summed over that whole call:
# at FUNCTION BLOCK ..        for this copy of the last function named, called from these blocks, from the outside in
# bound TERMS <= LIMIT = M    how often is run: [BLOCK] a block, A->B an edge, k* counts it k times. The limit is of n, N, h
#                             as docs/BUDGETS.md says; M is its largest value, for n = 4, N = 4,096, h = 32
# never A->B                  an edge that no call takes
# apart A->B + C->D           no call takes the second edge after the first; NAME:A->B is an edge of a function called
# A line that begins with 'accepted' holds of calls that are accepted alone. What each line leans on is in
# bench/bound/loops.table; what is trusted, on docs/BUDGETS.md."""


def place(f, name):
    """The address of a loop's head or of a block."""
    return f.regions[name].head if name in f.regions else f.places[name]


def told_term(tool, own, term):
    times, what, block, second, function = term
    f = tool.functions[function] if function else own
    if what == "E":
        told = f"0x{place(f, block):x}->0x{place(f, second):x}"
    elif what == "B":
        told = " + ".join(f"0x{a:x}->0x{b:x}" for a, b in edges_of(f, term))
        told = f"({told})" if times > 1 and "+" in told else told
    else:
        told = f"[0x{place(f, block):x}]"
    told = f"{function}:{told}" if function else told
    return told if times == 1 else f"{times}*{told}"


def told_line(tool, f, line, top):
    terms = " + ".join(told_term(tool, f, term) for term in line.terms)
    word = "accepted " if line.accepted else ""
    if line.apart:
        return f"    {word}apart {terms}"
    if not line.limit:
        return f"    {word}never {terms}"
    most = max(sum(k * UNITS[u](c) for u, k in line.limit.items()) for c in worst_calls(top, "any"))
    return f"    {word}bound {terms} <= {written(line.limit)} = {most}"


def loops(f):
    for head, loop in f.loops.items():
        entered = [b for b in loop.body if any(p not in loop.body for p in f.before[b])]
        more = "  irreducible" if len(entered) > 1 else ""
        yield f"  loop 0x{head:x} from {' '.join(f'0x{a:x}' for a, _ in loop.back)}{more}"


def lines(tool):
    yield HEAD
    archives = sorted({f.archive for f in tool.functions.values()})
    for archive in archives:
        yield f"archive {Path(archive).name} {hashlib.sha256(Path(archive).read_bytes()).hexdigest()}"
    for f in tool.functions.values():
        yield f"function {f.name} {Path(f.archive).name}"
        yield from loops(f)
    for top in tool.exported:
        g = tool.graph(top, "any")[0]
        yield f"call {top}"
        for path, f in g.copies:
            own = [line for line in tool.table.of.get(f.name, []) if line.holds_in(path, True)]
            if own:
                called = [top] + [told_call(tool, path, k) for k in range(1, len(path))]
                yield f"  at {' '.join(called)}"
                yield from (told_line(tool, f, line, top) for line in own)


def told_call(tool, path, k):
    """The k-th call of a path: the block that calls, and the function called."""
    name, _, block = path[k].rstrip(")").partition("(")
    caller = tool.functions[path[k - 1].partition("(")[0]]
    return f"0x{caller.places[block]:x} {name}"
