"""Where the lines of a table have gone in code that was compiled anew: which stand, which have moved, which are gone, and
which loops are new. It tells, and on request rewrites the table; it never decides that a line holds of other code."""
import re
from loops import matched, place_key
from table import parse_term, written_term


class Moves:
    """Of one function whose code has changed; `to` has its own loops, `others` those of the functions that it calls."""

    def __init__(self, f, to, lines, others):
        self.f, self.to, self.lines, self.others = f, to, lines, others
        self.new = sorted(set(f.regions) - set(to.values()), key=place_key)
        self.gone = [line for line in lines if self.lost(line)]
        self.moved = [line for line in lines if line not in self.gone and self.now(line) != line.left]

    def lost(self, line):
        return sorted(r for function, r in line.regions() if self.place(function, r) is None)

    def place(self, function, region):
        """Where a loop is now, None if it isn't there."""
        return self.others[function].get(region) if function in self.others else region

    def whole(self):
        """Is every line found again, and no loop new?"""
        return not self.gone and not self.new

    def now(self, line):
        return " + ".join(written_term(self.term(t)) for t in line.terms)

    def told(self):
        f = self.f
        stand = len(self.lines) - len(self.gone) - len(self.moved)
        counts = f"{stand} stand, {len(self.moved)} have moved, {len(self.gone)} are gone"
        yield f"{f.name}: other code than the table's; of {len(self.lines)} lines {counts}"
        for line in self.moved:
            yield f"  moved: {line.text} ({line.source}), now {self.now(line)}"
        for line in self.gone:
            lost = ", ".join(self.lost(line))
            place = "what is in no loop" if lost == "0" else f"loop {lost}"
            yield f"  gone: {line.text} ({line.source}): {place} isn't there in this shape"
        for name in self.new:
            region = f.regions[name]
            if name == "0":
                yield "  changed: what is in no loop"
            else:
                size = sum(f.blocks[b].size for b in region.body)
                yield f"  new or changed: loop {name}, at {region.head:x}, {size} instructions"

    def name(self, function, name):
        if name is None:
            return None
        region, colon, block = name.partition(":")
        return (self.place(function, region) or region) + colon + block

    def term(self, term):
        times, what, block, second, function = term
        own = function or self.f.name
        return times, what, self.name(own, block), self.name(own, second), function


def all_moves(tool):
    """Of each function that has changed and has lines; then those that are new, and those that are gone."""
    changed = tool.changed()
    known = tool.table.codes
    to = {n: matched(tool.functions[n], tool.table.shapes[n]) for n in changed if n in known}
    moves = [Moves(tool.functions[n], to[n], tool.table.of.get(n, []), to) for n in to]
    new = [n for n in changed if n not in known]
    gone = [n for n in known if n not in tool.functions]
    return moves, new, gone


def told(tool):
    """All that has changed, a line each."""
    moves, new, gone = all_moves(tool)
    for move in moves:
        yield from move.told()
    for name in new:
        f = tool.functions[name]
        loops = ", ".join(sorted(set(f.regions) - {"0"}, key=place_key)) or "none"
        yield f"{name}: new, no line has its name; its loops: {loops}"
    for name in gone:
        yield f"{name}: gone, the table has {len(tool.table.of.get(name, []))} lines of it"


# In place of a code: lines of this function are gone, or loops of it new; only `lock` ties it.
OPEN = "open"


def locked_head(f):
    """The lines that tie a function's lines to its code."""
    shapes = " ".join(f"{name} {f.regions[name].shape}" for name in sorted(f.regions, key=place_key))
    return [f"function {f.name} code {f.code}", f"loop {shapes}"]


def rewritten(tool, lock):
    """The table with the names of lines that have moved, and lines that are gone as comments. A function is tied to its new
    code where all its lines were found again and no loop is new, or where `lock` names it; else it stays refused."""
    moves = {move.f.name: move for move in all_moves(tool)[0]}
    with open(tool.table.name, encoding="utf-8") as file:
        text = file.read().splitlines()
    out, move = [], None
    for number, line in enumerate(text, 1):
        words = line.split("#")[0].split()
        if words[:1] == ["function"]:
            f, move = tool.functions.get(words[1]), moves.get(words[1])
            if lock:
                move = None
            heads = locked_head(f) if f and (words[1] in lock or move) else []
            if move and (not move.whole() or words[-1] == OPEN):
                heads[0] = f"function {words[1]} code {OPEN}"
            out += heads or [line]
        elif words[:1] == ["loop"]:
            out += [] if heads else [line]
        elif move and words[:1] and words[0] in ("bound", "never", "apart", "accepted"):
            gone = any(lost.number == number for lost in move.gone)
            out.append(f"# gone: {line}" if gone else renamed(line, move))
        else:
            out.append(line)
    return "\n".join(out) + "\n"


def renamed(line, move):
    """A line of the table with the new names of its terms."""
    claim, rest = line.split(";", 1)
    left, sign, right = claim.partition("<=")
    verb = re.match(r"^\s*(?:accepted )?(?:bound|never|apart) ", left)[0]
    terms = [written_term(move.term(parse_term(t, "loops.table"))) for t in left[len(verb) :].split("+")]
    return f"{verb}{' + '.join(terms)} {sign + right if sign else ''};{rest}".replace(" ;", " ;")
