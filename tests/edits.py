#!/usr/bin/env python3
"""Reads what the gate says of each wrong program and prints at what each is refused: by function, or by the claim on small
maps, the goal or fact that it names first.

tests/edits.py [CRATE..]           a line for each edit; fails if one is not refused, or shows nothing, or if docs/CONTRACTS.md
                                   or docs/DEMANDS.md says otherwise
tests/edits.py --write [CRATE..]   writes the last column of the tables there, a row for each edit and no other

The log is target/gate.log, or what the variable GATE names: what `.ci/run`, `rt ci CRATE` or `rt must-fail CRATE` printed. An
edit of which it says nothing, or whose crate has changed since, is counted at the end and its row stays as it is.
"""
import os
import re
import sys
from pathlib import Path

ROOT = Path(__file__).resolve().parent.parent
CRATES = ROOT / "crates"
LOG = Path(os.environ.get("GATE") or ROOT / "target" / "gate.log")
PAGES = [ROOT / "docs" / "CONTRACTS.md", ROOT / "docs" / "DEMANDS.md"]
# what small maps are held to, by computation
CLAIMS = {"small_maps", "small_links", "small_factors", "small_joins", "small_contractions", "small_record", "small_partner", "small_jobs", "small_names", "small_relations", "star_again_lem"}

# lemmas that stand before a claim, and the claim that each is for
LEMMAS = {"marked_one": "small_relations.marked", "left_at": "small_relations.open_piece", "kept": "small_names.passed"}


def edits():
    """CRATE/EDIT of every wrong program."""
    return [f"{path.parent.parent.name}/{path.stem}" for path in sorted(CRATES.glob("*/must-fail/*.edit"))]


def told(path):
    """What an edit says of itself."""
    return path.read_text().split("\n")[0].removeprefix("# ")


def said():
    """{CRATE/EDIT: what the log says of it last}."""
    log = LOG.read_text(errors="replace") if LOG.is_file() else ""
    return dict(re.findall(r"^(?:rt: )?must-fail (\w+/[\w.-]+?)\.edit: (.*)$", log, re.M))


def is_current(name):
    """Is the log younger than the edit and the crate?"""
    crate, label = name.split("/")
    files = [p for folder in ("src", "specs", "proofs") for p in (CRATES / crate / folder).rglob("*")]
    return max(p.stat().st_mtime for p in [*files, CRATES / crate / "must-fail" / f"{label}.edit"]) <= LOG.stat().st_mtime


def function_at(file, line):
    """The function of a source in which a line stands."""
    above = "\n".join(file.read_text().split("\n")[:line])
    return re.findall(r"^ *(?:pub(?:\(crate\))? )?(?:extern \"C\" )?fn (\w+)", above, re.M)[-1]


def field(file, line, column):
    """The field of a claim's proof that a place is in: the fields stand below its name, or all on its line."""
    lines = file.read_text().split("\n")
    if not lines[line - 1].startswith(" "):
        return re.findall(r"[{;] ([a-z][\w-]*) = ", lines[line - 1][:column])[-1]
    return next(m[1] for m in (re.match(r"  ([a-z][\w-]*) =", above) for above in reversed(lines[:line])) if m)


def shown(name, text):
    """The last column of an edit's row, or nothing: a function or a file of laws, and what is refused of it; of a claim its field."""
    crate = CRATES / name.split("/")[0]
    if not text.startswith("refused, as it must be") or "only because" in text or "only by a limit" in text:
        return ""
    place = re.search(r"(?:\./)?((?:src|specs|proofs)/[\w/+.-]*?\.(?:rt|antt)):(\d+):(\d+): (?:error: )?(?:`([^`]+)`: )?(.*)", text)
    if not place:
        return ""
    file, line, column, fact, message = crate / place[1], int(place[2]), int(place[3]), place[4], place[5]
    if fact in CLAIMS:
        return f"`{fact}.{field(file, line, column)}`"
    if name.startswith("maps/"):
        return f"`{LEMMAS.get(fact, fact)}`"
    if file.suffix == ".rt":
        goal = re.search(r"\(`([^`]+)`", message)
        return f"`{function_at(file, line)}`: `{goal[1] if goal else 'returns'}`"
    where = file.stem if file.parent.name == "proofs" else file.parent.name
    if where.startswith("+") and fact:
        # functions that call one another have one folder, and their goals begin with the function
        where, fact = fact.split("-", 1)
    return f"`{where}`: `{fact}`" if fact else f"`{where}`"


# ---- the tables


def rows_of(page):
    """{edit: (line number, cells)} of the rows of a page that have an edit, by the columns 'Edit' and 'Refused at'."""
    found, header = {}, []
    for number, line in enumerate(page.read_text().split("\n")):
        cells = [cell.strip() for cell in line.strip().strip("|").split("|")]
        if not line.startswith("|"):
            header = []
        elif not header:
            header = cells
        elif header[-1] == "Refused at" and not line.startswith("|---"):
            found[cells[header.index("Edit")]] = (number, cells)
    return found


def page_of(name):
    return PAGES[1] if name.startswith("maps/") else PAGES[0]


def written(page, seen):
    """The page with a row for each edit that is its own, and no other; `seen` has the last column where the log is current."""
    lines, rows = page.read_text().split("\n"), rows_of(page)
    names, added = [name for name in edits() if page_of(name) == page], {}
    for name in names:
        crate, label = name.split("/")
        if name in rows:
            number, cells = rows[name]
            lines[number] = f"| {' | '.join([*cells[:-1], seen.get(name, cells[-1])])} |"
        else:
            number, cells = max(row for other, row in rows.items() if other.split("/")[0] == crate)
            says = told(CRATES / crate / "must-fail" / f"{label}.edit")
            added.setdefault(number, []).append(f"| {' | '.join([*cells[:-3], name, says, seen.get(name, 'not seen yet')])} |")
    gone = {number for name, (number, _) in rows.items() if name not in names}
    kept = [[] if number in gone else [line] for number, line in enumerate(lines)]
    return "\n".join(line for number, there in enumerate(kept) for line in [*there, *added.get(number, [])])


def main(words):
    write = "--write" in words
    crates = [word for word in words if word != "--write"]
    wanted = [name for name in edits() if not crates or name.split("/")[0] in crates]
    texts = said()
    seen = {name: shown(name, texts[name]) for name in wanted if name in texts and is_current(name)}
    empty = [name for name in seen if not seen[name]]
    rows = {name: row for page in PAGES for name, row in rows_of(page).items()}
    differ = [name for name in seen if name not in rows or rows[name][1][-1] != seen[name]]
    for name in seen:
        print(f"{name}: {seen[name] or 'NOTHING: ' + texts[name][:100]}")
    if write:
        for page in PAGES:
            page.write_text(written(page, {name: text for name, text in seen.items() if text}))
    else:
        for name in differ:
            print(f"{page_of(name).relative_to(ROOT)} says otherwise of {name}")
    print(f"edits: {len(seen)} read, {len(wanted) - len(seen)} of which no log of the crate as it is says a thing, {len(empty)} that show nothing, {len(differ)} told otherwise")
    return 1 if empty or (differ and not write) else 0


if __name__ == "__main__":
    sys.exit(main(sys.argv[1:]))
