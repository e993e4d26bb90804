#!/usr/bin/env python3
"""Brings the names of definitions and lemmas to one spelling: words in snake case, facts in camel case.

usage: respell.py [ROOT]   rewrites crates/*/{specs,proofs}/**.antt and the ghost parts of crates/*/src/*.rt in place

A name is renamed where it is declared (specs/*.antt, proofs/*.antt) and in each file that imports it. What Rattle makes
(goals, steps) and what lies in a function's own folder of proofs/ keeps its name. Names that would fall together are
printed and left.
"""

import collections
import os
import re
import sys

ROOT = sys.argv[1] if len(sys.argv) > 1 else "."
WORD = r"[^\s(){}\[\],;.]+"
HEAD = re.compile(r"^(\s*)((?:(?:unfoldable|abbrev|pub|data|record|ruleset) )*)(" + WORD + r")\s*(.*)$")
RESERVED = set("data record deriving module where use mod pub package open as unfoldable abbrev axiom unfold unfolding "
               "ruleset mutual infix infixl infixr elim let in do Type coe fcoe tcoe hcom com true false zero suc".split())


# Maps and numbers of a level that had a capital: their plain word is a variable's name in the same files. The library's getD is get_or.
BY_HAND = {"getD-listed": "get_or_listed", "Level": "level_at", "Floor": "floor_at", "Old": "old_at", "New": "new_at"}


def files(kind):
    for top, dirs, names in os.walk(os.path.join(ROOT, "crates")):
        dirs[:] = sorted(d for d in dirs if d != "out")
        for name in sorted(names):
            if name.endswith(kind):
                yield os.path.join(top, name)


def is_shared(path):
    """A file of definitions or of shared lemmas, and not of one function's proof."""
    rest = path[len(ROOT) + 1:].split("/")
    return rest[2] == "specs" or (rest[2] == "proofs" and len(rest) == 4)


def module_of(path):
    rest = path[len(ROOT) + 1:].split("/")
    return ".".join(["Rattle", rest[1], rest[2]] + rest[3:])[: -len(".antt")]


def snake(name):
    """The name in snake case; a letter of Greek keeps its capital."""
    name = name.replace("-", "_").replace("′", "'")
    name = re.sub(r"(?<=[a-z0-9])([A-Z])", lambda m: "_" + m.group(1).lower(), name)
    return re.sub(r"(?<=[a-z0-9_])([A-Z])", lambda m: m.group(1).lower(), name)


def camel(name):
    return "".join(part[:1].upper() + part[1:] for part in re.split(r"[-_]", name))


def spelled(name, is_fact, is_plain):
    if "+" in name or "◌" in name:
        return name
    if is_fact:
        return camel(name) if ("-" in name or name[0].islower()) else name
    if name[0].isupper() and is_plain and len(name) > 1 and re.match(r"^[A-Z][a-z]+$", name):
        return name.lower()
    if name[0].isupper() and not re.match(r"^[A-Z][-'₀-₉]", name):
        return re.sub(r"-", "_", name)
    return snake(name)


def declared(path):
    """The names that a file declares, each with its new spelling; and which of them are fields of records."""
    made, fields = {}, set()
    inside = None
    for line in open(path, encoding="utf-8"):
        if line.lstrip().startswith("--") or line.startswith(("use ", "pub use ", "mod ", "pub mod ")):
            continue
        m = HEAD.match(line.rstrip("\n"))
        if not m:
            continue
        indent, marks, name, rest = len(m.group(1)), m.group(2), m.group(3), m.group(4)
        if inside is not None and indent <= inside:
            inside = None
        if name in RESERVED or name in ("λ", "|", "_", "="):
            continue
        if re.search(r"(^|\s)=(\s|$)", re.sub(r"\([^()]*\)", "", rest)) and not re.match(r"^[{(:]", rest):
            continue
        if not (re.match(r"^[{(:]", rest)) or not re.search(r"(^|\s):(\s|$)", rest):
            if "ruleset" not in marks:
                continue
        if re.match(r"^\(.*\)\s*=", rest) and not marks:
            continue
        fact = bool(re.search(r"(→|:)\s*Type 0( where)?$", rest.strip()))
        plain = bool(marks.strip())
        if "record" in marks or "data" in marks:
            inside = indent if "record" in marks else None
        elif inside is not None:
            fields.add(name)
            fact = False
        made[name] = BY_HAND.get(name) or spelled(name, fact, plain)
    return made, fields


def settle(own):
    """Where a definition and a lemma would have one name, the lemma's ends in _lem: the definition is the one in camel case."""
    definitions = {new for made in own.values() for name, new in made.items() if re.match(r"^[a-z]\w*[A-Z]", name) and "-" not in name}
    for made in own.values():
        for name, new in list(made.items()):
            camel_case = re.match(r"^[a-z]\w*[A-Z]", name) and "-" not in name
            if new in definitions and not camel_case:
                made[name] = new + "_lem"


def imports(text):
    """What a file imports from a module of this repository: (module, [(name, alias or None)])."""
    for m in re.finditer(r"use (Rattle\.[\w.'+]+?)\.\{([^}]*)\}", text):
        pairs = []
        for item in m.group(2).split(","):
            words = item.split()
            if words:
                pairs.append((words[0], words[2] if len(words) == 3 else None))
        yield m.group(1), pairs


def pass_on(own, shared):
    """A module that another one passes on by 'pub use' gives its names under that module too."""
    for _ in range(3):
        for path in shared:
            for line in re.findall(r"(?m)^pub use .*$", open(path, encoding="utf-8").read()):
                for module, pairs in imports(line):
                    for name, alias in pairs:
                        if alias is None and own.get(module, {}).get(name, name) != name:
                            own[module_of(path)].setdefault(name, own[module][name])


def rename(text, names, fields):
    """Renames tokens; behind a dot only the fields of this repository's records and the names of its modules."""
    def one(m):
        word = m.group(0)
        start = m.start()
        dotted = start > 0 and text[start - 1] == "." and (start < 2 or not text[start - 2].isspace())
        binder = False
        if dotted:
            line = text[text.rfind("\n", 0, start) + 1:start]
            if re.search(r"λ [^.]*\.$", line):
                binder = True
        if dotted and not binder:
            return fields.get(word, word)
        if word in fields and re.search(r"[{;]\s*$", text[:start]) and re.match(r"\s+=\s", text[m.end():]):
            return fields[word]
        return names.get(word, word)
    return re.sub(WORD, one, text)


def main():
    shared = [p for p in files(".antt") if is_shared(p)]
    own, every_field = {}, {}
    for path in shared:
        made, fields = declared(path)
        own[module_of(path)] = made
    settle(own)
    for path in shared:
        for f in declared(path)[1]:
            if f in own[module_of(path)]:
                every_field[f] = own[module_of(path)][f]
    every_field = {a: b for a, b in every_field.items() if a != b}
    pass_on(own, shared)
    clashes = collections.Counter()
    for kind in (".antt", ".rt"):
        for path in files(kind):
            text = open(path, encoding="utf-8").read()
            names = {}
            aliases = {}
            if kind == ".antt" and is_shared(path):
                names.update({a: b for a, b in own[module_of(path)].items() if a != b})
            for module, pairs in imports(text):
                made = own.get(module, {})
                for name, alias in pairs:
                    if made.get(name, name) != name:
                        names[name] = made[name]
                    if alias and alias[0].islower() and module in own and snake(alias) != alias:
                        aliases[alias] = snake(alias)
            names.update({a: n for a, n in aliases.items() if a not in names})
            for m in re.finditer(r"use (Rattle\.[\w.'+]+) as (\w+)", text):
                for name, new in own.get(m.group(1), {}).items():
                    text = re.sub(r"(?<![\w'.-])" + m.group(2) + r"\." + re.escape(name) + r"(?![\w'-])", m.group(2) + "." + new, text)
            used = {n: v for n, v in names.items() if re.search(r"(?<![^\s(){}\[\],;.])" + re.escape(n) + r"(?![^\s(){}\[\],;.])", text)}
            tokens = set(re.findall(WORD, re.sub(r"(?m)^\s*(--|//).*$", "", text)))
            taken = collections.Counter(used.values())
            for n, v in list(used.items()):
                if v in tokens or taken[v] > 1:
                    clashes[(n, v)] += 1
                    if "--show" in sys.argv:
                        print(f"clash: {path}: {n} -> {v}")
            new = rename(text, names, every_field)
            if new != text:
                open(path, "w", encoding="utf-8").write(new)
    for (n, v), k in sorted(clashes.items()):
        print(f"falls together: {n} -> {v} in {k} files")


main()
