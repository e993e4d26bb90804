"""loops.table: what bounds the loops of each function, over a whole call of an exported one. It is what this tool trusts
most: each line is a claim about the code, with who says so. The head of loops.table says how a line is written."""
import re
from machine import Fail

# What bounds are made of, by the facts of a call (Call in calls.py): how a unit is written, and its value.
UNITS = {
    "1": lambda c: 1,
    "h": lambda c: c.h,
    "N": lambda c: c.N,
    "(n+1)N": lambda c: (c.n + 1) * c.N,
    "pN": lambda c: c.n * (c.n - 1) // 2 * c.N,
    "g": lambda c: c.gone,
    "(n+1)g": lambda c: (c.n + 1) * c.gone,
    "reads": lambda c: c.reads,
    "l": lambda c: c.level,
    "(l+1)reads": lambda c: (c.level + 1) * c.reads,
    "hh": lambda c: c.h * (c.h + 1) // 2,
    "(h+1)(n+1)": lambda c: (c.h + 1) * (c.n + 1),
    "(h+1)N": lambda c: (c.h + 1) * c.N,
    "(h+1)(n+1)N": lambda c: (c.h + 1) * (c.n + 1) * c.N,
    "s": lambda c: c.survivors,
    "(n+1)s": lambda c: (c.n + 1) * c.survivors,
    "n(n+1)s": lambda c: c.n * (c.n + 1) * c.survivors,
    "(n+1)(n+1)s": lambda c: (c.n + 1) ** 2 * c.survivors,
}

VERBS = ("bound", "never", "apart")

# Who says that a line holds.
KINDS = {
    "source": "a loop that counts, as its source says",
    "theorem": "a theorem, by name",
    "seen": "seen in the code; there is no theorem",
    "rest": "the rest of a loop that takes several at once, as the machine code counts it",
    "path": "a way that can't be taken, and why",
}


class Line:
    """One claim. Terms are (times, what, block, second block, function) with what of H head, B back edges, X block, E
    edge, and blocks by name; the function is None for that of the line, else one that it calls. `apart` says that no way
    takes the second term after the first."""

    def __init__(self, function, conditions, accepted, terms, limit, source, kind, reason, number, apart=False):
        self.function, self.conditions, self.accepted = function, conditions, accepted
        self.terms, self.limit, self.apart = terms, limit, apart
        self.source, self.kind, self.reason, self.number = source, kind, reason, number

    @property
    def left(self):
        return " + ".join(written_term(t) for t in self.terms)

    @property
    def right(self):
        return written(self.limit)

    @property
    def text(self):
        if self.apart:
            return f"apart {self.left}"
        return f"never {self.left}" if not self.limit else f"bound {self.left} <= {self.right}"

    def told(self):
        return f"{self.function}: {self.text} ({self.source}; line {self.number} of loops.table)"

    def holds_in(self, path, accepted):
        """Is it a line of this copy of its function? A copy is its calls from the exported function down."""
        if self.accepted and not accepted:
            return False
        return all(wanted == all(part in path for part in place) for wanted, place in self.conditions)

    def regions(self):
        """The loops that it names, each with its function."""
        return {(t[4] or self.function, name.partition(":")[0]) for t in self.terms for name in t[2:4] if name}


def written_term(term):
    times, what, block, second, function = term
    name = {"H": block, "B": f"^{block}", "X": block, "E": f"{block}>{second}"}[what]
    name = f"{function}/{name}" if function else name
    return name if times == 1 else f"{times}*{name}"


def written(limit):
    """A sum of units, as the table has it."""
    parts = []
    for unit, k in limit.items():
        sign = "- " if k < 0 else "+ " if parts else ""
        size = "" if abs(k) == 1 and unit != "1" else str(abs(k))
        parts.append(sign + (size if unit == "1" else size + unit))
    return " ".join(parts) or "0"


def parse_term(text, where):
    found = re.match(r"^(?:(\d+)\*)?(?:(\S+)/)?(\^?)([\d.]+(?::\d+)?)(?:>([\d.]+:\d+))?$", text.strip())
    if not found:
        raise Fail(f"{where}: no such term: {text}")
    times, function, back, block, second = found.groups()
    what = "B" if back else "E" if second else "X" if ":" in block else "H"
    return int(times or 1), what, block, second, function


def parse_limit(text, where):
    limit = {}
    for sign, part in re.findall(r"([-+]?)\s*((?:\([^)]*\)|[^-+\s(])+)", text):
        found = re.match(r"^(\d*)(.*)$", part)
        unit, k = found[2] or "1", int(found[1] or 1)
        if unit not in UNITS:
            raise Fail(f"{where}: no such unit: {unit}")
        limit[unit] = limit.get(unit, 0) + (-k if sign == "-" else k)
    return {unit: k for unit, k in limit.items() if k}


def parse_condition(text):
    """Whether the call must have come through these, or not."""
    words = text.split()
    return words[0] == "under", words[-1].split("/")


class Table:
    """The lines, and of each function the code that they are of and the shapes of the loops that they name."""

    def __init__(self, name):
        self.name, self.lines, self.codes, self.shapes, self.sizes = name, [], {}, {}, {}
        function, conditions = None, []
        with open(name, encoding="utf-8") as file:
            for number, raw in enumerate(file, 1):
                where, text = f"{name}:{number}", raw.split("#")[0].strip()
                words = text.split()
                if not words:
                    continue
                if words[0] == "function":
                    function, conditions = words[1], []
                    self.codes[function] = words[3] if len(words) > 3 else None
                    self.shapes[function] = {}
                elif words[0] == "loop":
                    self.shapes[function].update(zip(words[1::2], words[2::2]))
                elif words[0] == "everywhere":
                    conditions = []
                elif words[0] in ("under", "not"):
                    conditions = [parse_condition(part) for part in text.split(",")]
                elif words[0] == "size":
                    place, _, limit = text.split(";")[0].removeprefix("size").partition("<=")
                    self.sizes[function, place.strip()] = parse_limit(limit, where)
                else:
                    self.lines.append(self.line(function, conditions, text, where, number))
        self.of = {}
        for line in self.lines:
            self.of.setdefault(line.function, []).append(line)

    def line(self, function, conditions, text, where, number):
        parts = [part.strip() for part in text.split(";")]
        if len(parts) != 3 or function is None:
            raise Fail(f"{where}: a line is a claim; its source; who says so")
        accepted = parts[0].startswith("accepted ")
        verb, _, rest = parts[0].removeprefix("accepted ").partition(" ")
        kind, _, reason = parts[2].partition(" ")
        if verb not in VERBS or kind not in KINDS:
            raise Fail(f"{where}: neither of {', '.join(VERBS)}, or no such kind: {text}")
        left, _, right = rest.partition("<=")
        terms = [parse_term(t, where) for t in left.split("+")]
        limit = {"bound": lambda: parse_limit(right, where), "never": dict, "apart": lambda: {"1": 1}}[verb]()
        return Line(function, conditions, accepted, terms, limit, parts[1], kind, reason, number, verb == "apart")


def edges_of(f, term):
    """The edges of the function that a term counts; one from None is the function's entry."""
    _, what, name, second, _ = term
    if what in "HB":
        if name not in f.regions or name == "0":
            raise Fail(f"{f.name} has no loop {name}")
        loop = f.regions[name]
        if what == "B":
            return loop.back
        block = loop.head
    else:
        if name not in f.places or second and second not in f.places:
            raise Fail(f"{f.name} has no block {name} or {second}")
        block = f.places[name]
    if what == "E":
        if f.places[second] not in f.blocks[block].successors:
            raise Fail(f"{f.name}: {name} doesn't lead to {second}")
        return [(block, f.places[second])]
    return [(p, block) for p in f.before[block]] + ([(None, block)] if block == f.entry else [])
