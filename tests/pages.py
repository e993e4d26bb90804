#!/usr/bin/env python3
"""Holds the pages of docs/ to the sources: public functions, theorems of one outcome, wrong programs, definitions and
their lines, names and files of docs/DEMANDS.md, docs/CONTRACTS.md and docs/GLOSSARY.md, public laws that nothing cites, functions of the C interface in
docs/JOBS.md and docs/BUDGETS.md, what bench/bound says is lent and read and its theorems, headings that are cited, the pictures of docs/figures
to what draws them, the table of docs/CRATES.md to crates.txt; and the C header to the crates: names of refusals, version, width.

tests/pages.py            says what differs, and fails if anything does
tests/pages.py --write    writes docs/DEFINITIONS.md and the table of docs/CRATES.md anew
"""
import importlib.util
import re
import sys
from functools import lru_cache
from pathlib import Path

ROOT = Path(__file__).resolve().parent.parent
CRATES = ROOT / "crates"
BOUND = ROOT / "bench" / "bound"
FIGURES = ROOT / "docs" / "figures"
NAMED_PAGES = ["docs/DEMANDS.md", "docs/CONTRACTS.md", "docs/GLOSSARY.md"]
TOLD_PAGES = ["README.md", "docs/TOUR.md", "docs/JOBS.md", "docs/CRATES.md", "docs/SCOPE.md", "docs/INTEGRATING.md", "docs/BUDGETS.md", "docs/DECISIONS.md", "docs/TRUST.md"]
# of the language and the prover; f stands for any function
LANGUAGE = {"requires", "returns", "f_one", "Learnt"}
# a definition begins so; the other declarations that are public are theorems and fields
DEFINITION = r"\s*(?:(?:abbrev|unfoldable) (?:pub )?|pub (?:data|record) )(\S+)"


def public_functions(crate):
    """What a library's lib.rt makes public, by name."""
    source = (CRATES / crate / "src" / "lib.rt").read_text()
    names = re.findall(r"^pub fn (\w+)", source, re.M)
    for item in re.findall(r"^pub use \w+::([^;]*);", source, re.M):
        names += [name for name in re.findall(r"\w+", item) if name[0].islower()]
    for path in sorted((CRATES / crate / "src").glob("*.rt")):
        for kind, body in re.findall(r"^impl(?:<[^>]*>)? (\w+)(?:<[^>]*>)? \{\n(.*?)^\}", path.read_text(), re.M | re.S):
            if any(re.search(rf"^pub struct {kind}\b", p.read_text(), re.M) for p in (CRATES / crate / "src").glob("*.rt")):
                names += [f"{kind}::{name}" for name in re.findall(r"^    pub fn (\w+)", body, re.M)]
    return {f"{crate}::{name}" for name in names}


@lru_cache(None)
def all_public():
    """Of all crates but programs, which is no job: what it prints is compared, not proved; and but the archives, whose exports
    tests/interface.py holds to the libraries'."""
    libraries = {p.parent.parent.name for p in CRATES.glob("*/src/lib.rt")} - {"programs", "zompelgors_c", "zompelgors_regions_c"}
    return frozenset().union(*map(public_functions, libraries))


@lru_cache(None)
def signature(name):
    """The file of a public function or method, and its text up to the body."""
    crate, *kind, function = name.split("::")
    for path in sorted((CRATES / crate / "src").glob("*.rt")):
        blocks = [path.read_text()]
        if kind:
            blocks = re.findall(rf"^impl(?:<[^>]*>)? {kind[0]}(?:<[^>]*>)? \{{\n.*?^\}}", path.read_text(), re.M | re.S)
        for block in blocks:
            m = re.search(rf"^{'    ' if kind else ''}pub fn {function}\b.*?^{'    ' if kind else ''}{{", block, re.M | re.S)
            if m:
                return path, m[0]
    raise SystemExit(f"{name} is not found in crates/{crate}/src")


def asks_its_caller(name):
    """Has a function a `requires`? Only functions below the jobs may; what they leave open is their caller's affair."""
    return "requires" in signature(name)[1]


# ---- definitions


@lru_cache(None)
def text(path):
    return path.read_text()


@lru_cache(None)
def imports(path):
    """{name as used: (file, its name there)} of what a source uses of crates/*/specs and crates/*/proofs."""
    found = {}
    for crate, folder, file, names in re.findall(r"^(?:ghost )?use Rattle\.(\w+)\.(specs|proofs)\.(\w+)\.\{([^}]*)\}", text(path), re.M):
        for item in names.split(","):
            first, _, last = item.strip().partition(" as ")
            found[last or first] = (CRATES / crate / folder / f"{file}.antt", first)
    return found


@lru_cache(None)
def definitions(path):
    """{name: line} of each definition of a file."""
    lines = text(path).split("\n")
    return {m[1]: number for number, m in enumerate((re.match(DEFINITION, line) for line in lines), 1) if m}


@lru_cache(None)
def declared(path):
    """All names that a source declares: definitions, theorems and fields, or functions, structs and enums."""
    if path.suffix == ".rt":
        return frozenset(re.findall(r"^ *(?:pub(?:\(crate\))? )?(?:extern \"C\" )?(?:fn|struct|enum) (\w+)", text(path), re.M))
    cases = [re.findall(r"^ +(\S+) :", data, re.M) for data in re.findall(r"^ *pub data .*?(?=\n\n|\Z)", text(path), re.M | re.S)]
    return frozenset(definitions(path)).union(re.findall(r"^\s*pub (\S+) :", text(path), re.M), *cases)


def words(statement):
    return set(re.findall(r"[^\s(){}\[\],;.]+", statement))


def modules_around(before, indent):
    """What the modules take as given in which a declaration of this indent stands, `before` being all above it."""
    heads = re.findall(r"^( *)(module .*?\bwhere)$", before, re.M | re.S)
    given = []
    for spaces, head in reversed(heads):
        if len(spaces) < indent:
            indent = len(spaces)
            given.append(head)
    return " ".join(given)


@lru_cache(None)
def paragraph(path, name):
    """What stands from a name's declaration on to the next empty line; of a theorem its statement, with what its modules take as given."""
    m = re.search(rf"^( *)(?:abbrev |unfoldable )?(?:pub )?(?:data |record )?{re.escape(name)} .*?(?=\n\s*\n|\Z)", text(path), re.M | re.S)
    if not m or name in definitions(path):
        return m[0] if m else ""
    return re.split(rf"\n\s*(?:unfolding |{re.escape(name)} )", m[0])[0] + " " + modules_around(text(path)[: m.start()], len(m[1]))


@lru_cache(None)
def rests_on(path, statement):
    """The (file, name) of the definitions that a statement of a source names."""
    used = words(statement)
    own = {(path, name) for name in used & set(definitions(path))} if path.suffix == ".antt" else set()
    other = {imports(path)[name] for name in used & set(imports(path))}
    return frozenset(own | {(file, name) for file, name in other if file.exists() and name in definitions(file)})


def closure(start):
    """Those definitions, and all that they name in turn."""
    reached, waiting = set(), set(start)
    while waiting:
        path, name = waiting.pop()
        reached.add((path, name))
        waiting |= set(rests_on(path, paragraph(path, name))) - reached
    return reached


def of_contracts(names):
    """The definitions that the contracts of these functions rest on."""
    start = set()
    for name in names:
        path, head = signature(name)
        start |= rests_on(path, re.split(r"^ +(?=requires|ensures)", head, maxsplit=1, flags=re.M)[-1])
    return closure(start)


def of_theorems():
    """The definitions that the statements of the theorems named on the pages rest on."""
    start = set()
    for _, _, names, files in named_rows():
        for path in files:
            if path.suffix == ".antt" and path.is_file():
                for name in {name.split(" ")[0] for name in names} & declared(path):
                    start |= rests_on(path, paragraph(path, name)) | ({(path, name)} if name in definitions(path) else set())
    return closure(start)


def is_public(path, name):
    """A shorthand that a file makes for itself is not."""
    return re.search(rf"^\s*(?:abbrev |unfoldable )?pub (?:data |record )?{re.escape(name)} ", text(path), re.M) is not None


def rows_of(found, whole):
    """A line of docs/DEFINITIONS.md for each file, with all its definitions or those found alone."""
    rows = []
    for path in sorted({path for path, _ in found}, key=lambda p: (p.parent.parent.name != "maps", str(p))):
        names = definitions(path) if whole else {name: line for name, line in definitions(path).items() if (path, name) in found}
        what = text(path).split("\n")[0].removeprefix("-- ").split(". ")[0]
        listed = ", ".join(f"`{name}` {line}" for name, line in sorted(names.items(), key=lambda item: item[1]))
        rows.append(f"| {path.relative_to(ROOT)} | {what} | {listed} |")
    return "| File | Holds | Definitions |\n|---|---|---|\n" + "\n".join(rows) + "\n"


def definitions_page():
    """docs/DEFINITIONS.md."""
    maps = {(p, name) for p in (CRATES / "maps" / "specs").glob("*.antt") for name in definitions(p)}
    jobs = maps | of_contracts(name for name in all_public() if not asks_its_caller(name))
    files = {path for path, _ in jobs}
    below = {(p, name) for p, name in of_contracts(all_public()) if p not in files}
    theorems = {(p, name) for p, name in of_theorems() if p not in files and (p, name) not in below and is_public(p, name)}
    total, lines = sum(len(definitions(p)) for p in files), sum(len(text(p).splitlines()) for p in files)
    return (
        "# What a reader must believe\n\n"
        "The contract of every job and of every function for C speaks by the definitions of the first table alone; each has the sentence that it states above it. "
        "The files hold nothing else. The number after a name is its line. Numbers, lists, integers and doubles are the toolchain's own.\n\n"
        f"{total} definitions in {len(files)} files of {lines} lines.\n\n" + rows_of(jobs, True) + "\n"
        "## Below the jobs\n\n"
        "The contracts of functions that ask something of their caller (docs/CONTRACTS.md) speak by these too. Nothing that a job promises rests on them.\n\n"
        + rows_of(below, False) + "\n"
        "## In theorems\n\n"
        "The statements of the theorems that docs/DEMANDS.md and docs/CONTRACTS.md name speak by these too: what a theorem says where it says several things at once, "
        "and the small maps. Shorthands that a file makes for itself are left out.\n\n" + rows_of(theorems, False)
    )


# ---- names and files on the pages


def cells(line):
    return [cell.strip() for cell in line.strip().strip("|").split("|")]


def tables(page):
    """(line number, heading, header, row) of each row of the tables of a page."""
    heading, header = "", []
    for number, line in enumerate((ROOT / page).read_text().split("\n"), 1):
        if line.startswith("#"):
            heading = line.lstrip("# ")
        if not line.startswith("|"):
            header = []
        elif not header:
            header = cells(line)
        elif not line.startswith("|---"):
            yield number, heading, header, cells(line)


def files_in(cell):
    """The files of a cell such as 'maps/specs: Map, Cell; levels: stdout': under crates/ or the root, .antt if none is given."""
    found = []
    for part in filter(None, (part.strip() for part in cell.split(";"))):
        folder, _, names = part.partition(": ")
        start = CRATES / folder if (CRATES / folder).is_dir() else ROOT / folder
        for name in names.split(", "):
            found.append(start / name if (start / name).is_file() else start / f"{name}.antt")
    return found


@lru_cache(None)
def named_rows():
    """(page, line, names, files) of each row whose last column is 'File'."""
    found = []
    for page in NAMED_PAGES:
        for number, _, header, row in tables(page):
            if header[-1] == "File":
                names = re.findall(r"`([^`]+)`", " ".join(row[:-1]))
                found.append((page, number, names, files_in(row[-1])))
    return found


def name_differences():
    """Every name of a row is declared in a file of that row, and every source of a row declares a name of it."""
    for page, number, names, files in named_rows():
        for path in files:
            if not path.is_file():
                yield f"{page}:{number} names {path.relative_to(ROOT)}, which is no file"
        sources = [path for path in files if path.is_file() and path.suffix in (".antt", ".rt")]
        for name in names:
            known = name in all_public() if "::" in name else any(set(name.split(".")) <= declared(path) for path in sources)
            if not known:
                yield f"{page}:{number}: no file of the row declares {name}"
        for path in sources:
            if not any(name.split(".")[0] in declared(path) for name in names):
                yield f"{page}:{number}: {path.relative_to(ROOT)} declares no name of the row"


def contract_differences():
    """Where a row names functions, the definitions of crates/maps/specs that it names are those that their contracts rest on."""
    for page, number, names, files in named_rows():
        functions = [name for name in names if name in all_public()]
        reached = {name for _, name in of_contracts(functions)}
        specs = [path for path in files if path.is_file() and path.parent == CRATES / "maps" / "specs"]
        for name in names if functions else []:
            if name not in reached and any(name in definitions(path) for path in specs):
                yield f"{page}:{number}: no contract of the row rests on {name}"


def prose_differences():
    """A name that stands outside those tables is declared somewhere; on other pages, one that is spelt as a theorem is, and
    that neither C nor Rust has."""
    sources = [p for part in ("src", "specs", "proofs") for p in CRATES.glob(f"*/{part}/*") if p.suffix in (".antt", ".rt")]
    known = LANGUAGE.union(*map(declared, sources))
    outside = [ROOT / "crates.txt", *(ROOT / "include").glob("*.h"), *(ROOT / "rust" / "src").glob("*.rs"), ROOT / "rust" / "Cargo.toml", ROOT / "release.sh"]
    spelt_so = set().union(*(re.findall(r"\w+", text(p)) for p in outside))
    for page in NAMED_PAGES + TOLD_PAGES:
        named = {number for number, _, header, _ in tables(page) if header[-1] in ("File", "Refused at")}
        spelling = r"`([a-zA-Z_][^`\s:/]*)`" if page in NAMED_PAGES else r"`([a-z]+(?:_[a-z]+)+)`"
        for number, line in enumerate((ROOT / page).read_text().split("\n"), 1):
            for name in re.findall(spelling, line) if number not in named else []:
                if name not in known and (page in NAMED_PAGES or name not in spelt_so):
                    yield f"{page}:{number} names {name}, which nothing declares"


def laws(path):
    """(line number, indent, name) of each law that a file makes public: no definition, no field of a record."""
    lines = text(path).split("\n")
    for number, line in enumerate(lines):
        m = re.match(r"( *)pub ([^\s:{(]+) :", line)
        around = [above for above in lines[:number] if above.strip() and not above.lstrip().startswith("--") and len(above) - len(above.lstrip()) < len(m[1])] if m else []
        if m and not (around and " : Type" in around[-1]):
            yield number, m[1], m[2]


def is_used(path, number, indent, name):
    """Does another law of the file use it? Its own clauses begin with it, at its indent."""
    return any(
        name in words(line) and not line.lstrip().startswith("--") and line.strip() != name and not line.startswith(f"{indent}{name} ")
        for other, line in enumerate(text(path).split("\n"))
        if other != number
    )


UNCITED = "## Lemmas that nothing cites any more"


def law_differences():
    """A law that is public is cited: by another source, by another law of its file, or by a page; but for those that docs/PORT.md lists. Those of one outcome have their own test."""
    cited = set().union(*(imports(p).values() for p in CRATES.rglob("*") if p.suffix in (".antt", ".rt") and "out" not in p.parts))
    told = set(re.findall(r"`([^`\s.]+)(?:\.[^`\s]*)?`", "".join((ROOT / page).read_text() for page in NAMED_PAGES + TOLD_PAGES)))
    told |= set(re.findall(r"`([^`\s]+)`", (ROOT / "docs/PORT.md").read_text().partition(UNCITED)[2]))
    for path in sorted(CRATES.glob("*/proofs/*.antt")):
        if path.parent.parent.name == "outcomes" and path.stem in ("Jobs", "Interface"):
            continue
        for number, indent, name in laws(path):
            if (path, name) not in cited and name not in told and not is_used(path, number, indent, name):
                yield f"{path.relative_to(ROOT)}:{number + 1}: nothing cites {name}"


def glossary_differences():
    """Every file of crates/maps/specs has a word in docs/GLOSSARY.md; Lib only lists them."""
    named = {path for page, _, _, files in named_rows() if page == "docs/GLOSSARY.md" for path in files}
    for path in sorted(set((CRATES / "maps" / "specs").glob("*.antt")) - named):
        if path.stem != "Lib":
            yield f"docs/GLOSSARY.md has no word of {path.relative_to(ROOT)}"


def edit_differences():
    """The edits under must-fail/ and those told; the function at which one is refused is of its crate."""
    edits = {f"{p.parent.parent.name}/{p.stem}" for p in CRATES.glob("*/must-fail/*.edit")}
    told = set()
    for page in NAMED_PAGES:
        for number, _, header, row in tables(page):
            if header[-1] == "Refused at":
                edit = row[header.index("Edit")]
                told.add(edit)
                crate = CRATES / edit.split("/")[0]
                # where a crate has no function, a file of its laws
                functions = set().union(*(declared(p) for p in (crate / "src").glob("*.rt"))) or {p.stem for p in (crate / "proofs").glob("*.antt")}
                if not edit.startswith("maps/") and not set(re.findall(r"`(\w+)`:", row[-1])) & functions:
                    yield f"{page}:{number}: refused at no function of the crate"
                claims = frozenset().union(*(declared(p) for p in (CRATES / "maps" / "proofs").glob("*.antt")))
                for name in re.findall(r"`([^`]+)`", row[-1]) if edit.startswith("maps/") else []:
                    if not set(name.split(".")) <= claims:
                        yield f"{page}:{number}: crates/maps/proofs has no claim {name}"
    for name in sorted(edits ^ told):
        yield f"the pages and must-fail/ differ in {name}"


# ---- the header, and headings


def spelt(variant):
    """The header's name of a refusal: NotTwice is ZG_E_NOT_TWICE."""
    return "ZG_E_" + re.sub(r"(?<!^)([A-Z])", r"_\1", variant).upper()


def header_differences():
    header = (ROOT / "include" / "zompelgors.h").read_text()
    numbers = (CRATES / "answers" / "specs" / "Numbers.antt").read_text()
    due = [("ZG_ACCEPTED", "0")] + [(spelt(name), k) for name, k in re.findall(r"^refusal_of \(?(\w+).* = refused (\d+)", numbers, re.M)]
    if re.findall(r"^ +(ZG_\w+) = (\d+)", header, re.M) != due:
        yield "include/zompelgors.h names the numbers otherwise than crates/answers does"
    parts = re.findall(r"^#define ZG_VERSION_(?:MAJOR|MINOR|PATCH) (\d+)", header, re.M)
    if f"version_for {' '.join(parts)} " not in (CRATES / "zompelgors" / "src" / "lib.rt").read_text():
        yield "include/zompelgors.h and zg_version are of two versions"
    for path in sorted((ROOT / "include").glob("*.h")):
        for number, line in enumerate(path.read_text().split("\n"), 1):
            if len(line) > 120:
                yield f"include/{path.name}:{number} is over 120 columns wide"


def cited_differences():
    """A comment cites a heading of docs/SCOPE.md as Scope: 'HEADING'."""
    headings = re.findall(r"^#+ (.*)", (ROOT / "docs" / "SCOPE.md").read_text(), re.M)
    for path in sorted((CRATES / "maps" / "specs").glob("*.antt")):
        for name in re.findall(r"Scope: '([^']*)'", path.read_text()):
            if name not in headings:
                yield f"{path.relative_to(ROOT)} cites '{name}', which is no heading of docs/SCOPE.md"


# What the region crate may cite of the proofs of crates below it: the files that are there to be cited from outside.
OUTSIDE = {"facts": "AcceptedWalks", "orbits": "OrbitLaws"}


def outside_differences():
    """The region crate sees only contracts: of facts and orbits its proofs use one file each, and definitions."""
    for path in sorted((CRATES / "regions").rglob("*.antt")):
        for crate, name in re.findall(r"^use Rattle\.(facts|orbits)\.proofs\.(\w+)", path.read_text(), re.M):
            if name != OUTSIDE[crate]:
                yield f"{path.relative_to(ROOT)} uses {name}, from inside {crate}"


# ---- functions


def function_differences():
    """Every public function has its row in docs/CONTRACTS.md, and where it asks nothing its theorem of one outcome."""
    named = set(re.findall(r"`(\w+::(?:[A-Z]\w*::)?[a-z]\w*)`", (ROOT / "docs" / "CONTRACTS.md").read_text()))
    for name in sorted(all_public() ^ named):
        yield f"docs/CONTRACTS.md and the sources differ in the public function {name}"
    theorems = "".join((CRATES / "outcomes" / "proofs" / f).read_text() for f in ("Jobs.antt", "Interface.antt"))
    for name in sorted(name for name in all_public() if not asks_its_caller(name)):
        theorem = name.split("::")[-1] + "_one"
        if not re.search(rf"^pub {re.escape(theorem)} :", theorems, re.M):
            yield f"there is no theorem {theorem} of {name}"


def interface_differences():
    """Every function of the headers has its row in docs/JOBS.md and in the tables of docs/BUDGETS.md."""
    headers = "".join(path.read_text() for path in (ROOT / "include").glob("*.h"))
    due = set(re.findall(r"^\w+ (zg_\w+)\(", headers, re.M))
    for page, column in (("docs/JOBS.md", "Crate"), ("docs/BUDGETS.md", "Bytes"), ("docs/BUDGETS.md", "Any input")):
        told = {name for _, _, header, row in tables(page) if column in header for name in re.findall(r"zg_\w+", row[0])}
        for name in sorted(due ^ told):
            yield f"{page} and the headers differ in {name}, by the table with '{column}'"


def budget_differences():
    """docs/BUDGETS.md has what bench/bound/page.py says is lent and read, and a line for each line of the table that cites a
    theorem or was seen in the code; theorems stand where lines say."""
    if str(BOUND) not in sys.path:
        sys.path.insert(0, str(BOUND))
    page, table = importlib.import_module("page"), importlib.import_module("table")
    printed = (ROOT / "docs" / "BUDGETS.md").read_text().splitlines()
    lines = table.Table(BOUND / "loops.table").lines
    for row in [*page.lent_rows(), *page.read_rows(), *page.theorem_rows(lines), *page.seen_rows(lines)]:
        if row not in printed:
            yield f"docs/BUDGETS.md hasn't the row that bench/bound/page.py prints: {row}"
    yield from page.lost_theorems(lines)
    yield from page.lost_sources(lines)


def quoted_differences():
    """A block of code whose first line names a file is a part of that file."""
    for page in TOLD_PAGES + ["docs/CONTRIBUTING.md"]:
        for name, block in re.findall(r"^```(crates/\S+)\n(.*?)^```$", (ROOT / page).read_text(), re.M | re.S):
            if not (ROOT / name).is_file() or block not in (ROOT / name).read_text():
                yield f"{page} shows what {name} hasn't"


# ---- pictures, and the crates


def figures():
    """docs/figures/draw.py as a module, and what it draws with."""
    if str(FIGURES) not in sys.path:
        sys.path.insert(0, str(FIGURES))
    return importlib.import_module("draw")


def figure_differences():
    """The SVGs are what docs/figures/draw.py writes, and each is shown on a page."""
    yield from figures().differences()
    shown = "".join(path.read_text() for path in [ROOT / "README.md", *(ROOT / "docs").glob("*.md")])
    for path in sorted(FIGURES.glob("*.svg")):
        if f"figures/{path.name})" not in shown:
            yield f"no page shows docs/figures/{path.name}"
    for name in re.findall(r"\]\(((?:docs/)?figures/[^)]*)\)", shown):
        if not (FIGURES / Path(name).name).is_file():
            yield f"a page shows {name}, which is no file"


def crates_page():
    """docs/CRATES.md, with the rows of its first table from crates.txt."""
    page = (ROOT / "docs" / "CRATES.md").read_text()
    rows = "".join(f"{row}\n" for row in figures().crates.table_rows())
    return re.sub(r"(^\| Crate .*\n\|---.*\n)(?:\|.*\n)*", lambda m: m[1] + rows, page, count=1, flags=re.M)


def differences():
    yield from function_differences()
    yield from interface_differences()
    yield from budget_differences()
    yield from name_differences()
    yield from contract_differences()
    yield from prose_differences()
    yield from law_differences()
    yield from glossary_differences()
    yield from edit_differences()
    if (ROOT / "docs" / "DEFINITIONS.md").read_text() != definitions_page():
        yield "docs/DEFINITIONS.md is not what --write writes"
    yield from quoted_differences()
    yield from figure_differences()
    if (ROOT / "docs" / "CRATES.md").read_text() != crates_page():
        yield "docs/CRATES.md is not what --write writes"
    yield from header_differences()
    yield from cited_differences()
    yield from outside_differences()


if __name__ == "__main__":
    if sys.argv[1:] == ["--write"]:
        (ROOT / "docs" / "DEFINITIONS.md").write_text(definitions_page())
        (ROOT / "docs" / "CRATES.md").write_text(crates_page())
    found = list(differences())
    print("\n".join(found + [f"pages: {len(found)} differences"]))
    sys.exit(1 if found else 0)
