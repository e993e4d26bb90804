#!/usr/bin/env python3
"""Counts the places of docs/DESIGN-PASS.md in a tree: for each point the lines that its rule finds.
usage: places.py [-l] [ROOT]   -l lists the places; ROOT is a checkout (default: this one)
"""
import collections
import pathlib
import re
import sys

LIST = "-l" in sys.argv
ROOT = pathlib.Path(next((a for a in sys.argv[1:] if a != "-l"), pathlib.Path(__file__).parent.parent))
SOURCES = sorted(ROOT.glob("crates/*/src/**/*.rt"))
ITEM = re.compile(r"^(?:#\[[^\n]*\]\n)*(?:    )?(?:pub(?:\(crate\))? )?(?:const )?(?:extern \"C\" )?fn (\w+).*?^(?:    )?\}$", re.M | re.S)


def code(path):
    """The text without comments and clauses, lines kept."""
    text = re.sub(r"//[^\n]*", "", path.read_text())
    text = re.sub(r"^( *)(?:ghost use|requires|ensures)\b[^\n]*(?:\n +×[^\n]*)*", r"\1", text, flags=re.M)
    return text


def functions(text):
    for found in ITEM.finditer(text):
        yield found.group(1), found.group(0), text.count("\n", 0, found.start()) + 1


def line_of(text, at):
    return text.count("\n", 0, at) + 1


def by_pattern(pattern, flags=re.M):
    for path in SOURCES:
        text = code(path)
        for found in re.finditer(pattern, text, flags):
            yield path, line_of(text, found.start()), " ".join(found.group(0).split())[:70]


def enums():
    """1: an own enum with one variant for what was found and one for what stands in its way."""
    yield from by_pattern(r"^(?:pub(?:\(crate\))? )?enum \w+ \{(?=[^}]*\b(?:Refused\(|Nowhere|Stopped\(|Empty))[^}]*\}")


def exits():
    """1: a refusal that is taken out of one answer and put into another."""
    yield from by_pattern(r"if let \w+(?:::\w+)*::(?:Refused|Stopped|Err)\(\w+(?:, \w+)?\) = (?:[^{}]|\{[^{}]*\})*?\{\s*return \w+(?:::\w+)*\b")
    yield from by_pattern(r"(?:\w+::)*(?:Refused|Stopped|Err)\((\w+)(?:, \w+)?\) => (?:return )?(?:\w+::)*(?:Refused|Stopped|Err)\(\1")
    yield from by_pattern(r"if let Err\((\w+)\) = [^{}]*\{\s*return Err\(\1\)")


def flags():
    """1: a field that says whether the values beside it hold."""
    yield from by_pattern(r"pub stop: Stop,")


def shape(text):
    """A function's text with types, numbers and names out of the way."""
    names = {}
    text = re.sub(r"^(?:pub(?:\(crate\))? )?fn \w+", "fn F", text)
    text = re.sub(r"\b(?:u8|u16|u32|u64|usize|i32|Level|Dim|Mark)\b", "T", text)
    text = re.sub(r"\b(?:true|false|0x\w+|\d+\w*|[A-Z][A-Z_]+)\b", "N", text)
    keep = {"fn", "let", "mut", "for", "in", "if", "else", "return", "while", "as", "len", "T", "N", "F"}
    return re.sub(r"\b[a-z_]\w*\b", lambda m: m.group(0) if m.group(0) in keep else names.setdefault(m.group(0), f"x{len(names)}"), " ".join(text.split()))


def twins():
    """2: functions whose texts are one when types, numbers and names are out of the way (exports and one-line bodies left out)."""
    shapes = collections.defaultdict(list)
    for path in SOURCES:
        if path.parts[-3].startswith("zompelgors"):
            continue
        for name, text, at in functions(code(path)):
            body = text[text.find("{") + 1:]
            if len(body.split(";")) > 2 or "for " in body:
                shapes[shape(text)].append((path, at, name))
    for same in shapes.values():
        if len(same) > 1:
            yield from same


def ladders():
    """2: the same call for one number after the other."""
    yield from by_pattern(r"if \w+(?:\.0)? == 1 \{\s*(?:return )?(\w+)\([^{}]*\}\s*(?=if \w+(?:\.0)? == 2)")


def copies():
    """2: a function that stands under one name in two crates that are no C interface."""
    seen = collections.defaultdict(list)
    for path in SOURCES:
        if not path.parts[-3].startswith("zompelgors"):
            for name, text, at in functions(code(path)):
                if name not in ("main", "fmt", "from", "new"):
                    seen[name, shape(text)].append((path, at, name))
    for same in seen.values():
        if len(same) > 1:
            yield from same


def index_loops():
    """3: a loop whose counter picks the elements of a slice or an array."""
    head = re.compile(r"\bfor (\w+) in [^{]*\.\.[^{]*\{|\bwhile (?:0 < )?(\w+)(?: < [^{]*)? \{")
    for path in SOURCES:
        text = code(path)
        for found in head.finditer(text):
            name = found.group(1) or found.group(2)
            depth, at = 1, found.end()
            while depth:
                depth += {"{": 1, "}": -1}.get(text[at], 0)
                at += 1
            body = text[found.end():at]
            if found.group(2) and not re.search(rf"\b{name} = {name} [+-] 1\b|\b{name} [+-]= ", body):
                continue
            names = [name] + re.findall(rf"let (\w+)(?:: \w+)? = (?:\d+ \* )?{name} as \w+;", body)
            any_name = "|".join(names)
            picks = rf"\[[^\]]*\b(?:{any_name})\b[^\]]*\]|\b(?:lambda_at|delta_at)\([^()]*\b(?:{any_name})\b"
            if re.search(picks, body):
                yield path, line_of(text, found.start()), " ".join(found.group(0).split())


def by_hand():
    """4: a function that compares, converts, joins or prints as a derive or std does."""
    yield from by_pattern(r"^ *(?:pub(?:\(crate\))? )?fn (?:same_mark|removes|both|later|larger|wide|two_bytes|low_byte|high_byte|eight_bytes|is_due|distance|next_signed|numbers_of|refused|number|\w+_as)\b")


def travelling():
    """5: parameters that travel together: a pyramid's four, a kernel's four, the strings' two, a table's three."""
    parts = (r"sizes: Sizes,\s*rows: &(?:mut )?\[u16\],\s*lambda", r"at: AtLevel,\s*rows: &", r"kernel: Kernel,\s*lambda: &\[u8\],\s*delta: &\[u8\],\s*next", r"head: &(?:mut )?\[u16; HEADS\],\s*next", r"\bdarts: u16,\s*table: &\[u16\]|table: &\[u16\],(?: n: Dim,)? darts: u16", r"\breached: &(?:mut )?\[bool; ROOM\],\s*queue")
    for part in parts:
        yield from by_pattern(r"(?<![\w.])" + part)


def lengths():
    """6: a place and a count beside a slice."""
    yield from by_pattern(r"\b(?:bytes|row|to): &(?:mut )?\[u\d+\], (?:from|at): usize(?:, count: usize)?")


def switches():
    """7: a parameter that says which step to run."""
    yield from by_pattern(r"\btest: Test\b")


def repeats():
    """8: a `let` that stands three times or more in the answers of one function; the places after the first."""
    for path in sorted(ROOT.glob("crates/*/proofs/**/Answers.antt")):
        seen = collections.Counter(line.strip() for line in path.read_text().split("\n") if re.match(r" +let [\w-]+ : ", line))
        for text, often in seen.items():
            if often > 2:
                yield path, often - 1, text[:70]


RULES = (enums, exits, flags, twins, ladders, copies, index_loops, by_hand, travelling, lengths, switches, repeats)

if __name__ == "__main__":
    for rule in RULES:
        places = sorted(set(rule()))
        number = sum(at for _, at, _ in places) if rule is repeats else len(places)
        print(f"{number:4}  {rule.__name__}: {rule.__doc__}")
        if LIST:
            for path, at, text in places:
                print(f"        {path.relative_to(ROOT)}:{at}: {text}")
