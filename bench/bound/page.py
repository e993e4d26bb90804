"""docs/BUDGETS.md: what is proved, what is derived from the machine code, what was found by search, what is assumed."""
import hashlib
import io
import re
import subprocess
import tarfile
from collections import defaultdict
from math import ceil
from pathlib import Path
from bounds import worst
from table import KINDS

ROOT = Path(__file__).parent.parent.parent

# ---------------------------------------------------------------- what is lent and read

# What each function is lent, in bytes: how it is written, and for n = 4 and N = 4,096.
TABLE = 2 * 5 * 4096
PYRAMID = TABLE + 2 * 4096
RECORD = 49180
LENT = {
    "zg_version": ("nothing", "0", 0),
    "zg_check_base": ("rows", "2(n+1)N", TABLE),
    "zg_check": ("pyramid, table", "4(n+1)N + 2N", PYRAMID + TABLE),
    "zg_add": ("pyramid, mark row, table", "4(n+1)N + 3N", PYRAMID + TABLE + 4096),
    "zg_marks_of": ("Λ, Δ, mark row", "3N", 3 * 4096),
    "zg_read": ("pyramid", "2(n+1)N + 2N", PYRAMID),
    "zg_read_by_levels": ("pyramid", "2(n+1)N + 2N", PYRAMID),
    "zg_unfold": ("pyramid, table", "4(n+1)N + 2N", PYRAMID + TABLE),
    "zg_unfold_all": ("pyramid, tables, counts, levels since which", "2(h+2)(n+1)N + 2N + 165", PYRAMID + 33 * TABLE + 165),
    "zg_row": ("base rows, unfolded level", "4(n+1)N", 2 * TABLE),
    "zg_survivors": ("Λ, words", "N + 512", 4096 + 512),
    "zg_mark_cells": ("table, mark row", "2(n+1)N + N", TABLE + 4096),
    "zg_take": ("record, pyramid, table", "bytes + 4(n+1)N + 2N", RECORD + PYRAMID + TABLE),
    "zg_write": ("pyramid, table, record", "4(n+1)N + 2N + bytes", RECORD + PYRAMID + TABLE),
    "zg_decimation": ("pyramid, table", "4(n+1)N + 2N", PYRAMID + TABLE),
    "zg_census": ("pyramid, table, counts, sums", "4(n+1)N + 2N + 462", PYRAMID + TABLE + 462),
    "zg_import": ("two rows of M, base rows of N = 2M, n = 2", "16M", 16 * 2048),
    "zg_export": ("base rows, n = 2, two rows of N div 2", "8N", 8 * 4096),
    "zg_join": ("pyramid, table", "4(n+1)N + 2N", PYRAMID + TABLE),
    "zg_rebase": ("pyramid, table, old numbers", "4(n+1)N + 4N", PYRAMID + TABLE + 2 * 4096),
    "zg_regions": ("pyramid, table, name row", "4(n+1)N + 4N", PYRAMID + TABLE + 2 * 4096),
}

# Base entries read: of what, at most how many, for n = 4 and N = 4,096, and where it is said.
READS = [
    ("zg_read, zg_read_by_levels, of an accepted pyramid", "1 + 2g", 8191,
     "`few` of `facts` in crates/facts/proofs/Facts.antt; of the jobs `accepted_facts` with `accepted_read` and "
     "`accepted_by_levels` in AcceptedJobs.antt"),
    ("zg_unfold, of an accepted pyramid", "(n+1)·survivors + 2g, so never more than (n+1)N", 20480,
     "`accepted_total` in AcceptedJobs.antt, from `cost_bound` in Costs.antt"),
    ("zg_read, on any tables", "1 + 2N, then refused 15", 8193,
     "the definition `walk` in crates/maps/specs/Walk.antt, which its contract cites"),
    ("zg_read_by_levels, on any tables", "1 + 2N, then refused 15", 8193,
     "`read_base` in ByLevels.antt and `any_tables` in AnyTables.antt"),
    ("zg_unfold, on any tables", "(n+1)N(1 + 2N)", 167792640,
     "one walk for each entry, up to the first refusal: the definitions `walk` and `unfold_lent`"),
]

# ---------------------------------------------------------------- texts

OPENING = """# Budgets

`bench/bound.sh` prints this page.
Memory lent and base entries read are **proved**.
Instructions are **derived from the machine code** of the archives and bound every call, accepted or refused; what that leans on is told line by line, theorems by name.
The dearest calls found and the stack are **measured**.
What is **assumed** stands last.
Cycles, caches and page faults are not in it.

n, N and h are those of the pyramid, l is the level asked, M the darts of a combinatorial map, for which N stands in the bound of zg_import.
g are the darts that are gone: those with Λ below h, for a reading or unfolding below l, for an add those of the mark row too; N is the most.
s are the survivors of all levels together.
p = n(n−1)/2 is the number of pairs of involutions that must commute.
'Most' is for n = 4, N = 4,096 and h = 32, M = 2,048, with every other number at its most.

## Proved: memory lent

A job is refused 4 where a slice hasn't its length; those that zg_take writes to and the buffer of zg_write may be longer, and what is behind stays as it was.
A pyramid is its rows, Λ and Δ.
bytes are those of the record, at most 7 + (n+1)(3 + 2N) + 2(3 + N).
"""

READS_TEXT = """
## Proved: base entries read

A walk's count is the number of base entries that it reads; that the code reads each of them once is seen in its loop (docs/TRUST.md: a contract can't forbid work that is thrown away).
A pyramid is accepted when zg_take or zg_check gave 0 for it, or zg_add or zg_join gave 0, and nothing wrote its rows, Λ or Δ since (`accepted_pyramid` in AcceptedJobs.antt, `add_pyramid` in AddedJobs.antt, `taken_both` in crates/taking/proofs/Joined.antt, `join_joins` in JoinedJobs.antt); zg_rebase leaves one too (`packed_again` in crates/starting_again/proofs/PackedAgain.antt).
So check once what comes from outside, and budget by the first two lines.
"""

READS_BEHIND = """
docs/figures/plot-reads.svg draws what unfolding each level reads under the bound of accepted pyramids, docs/figures/plot-memory.svg the bytes of a folded pyramid beside those of all its levels.
Counts in a refusal are 0, though entries were read.
The other jobs return no count of reads; what they read in loops that depend on the data follows.
"""

ENTRIES_TEXT = """
## Proved: entries read in loops that depend on the data

Loops over all darts and rows read each entry once, as their source says.
All others go along the strings of kernels, along walks, or search orbits; crates/turns defines what they read and how often they turn, and adds it up.
That the loops are those of the definitions is read in the code: no function answers how often it turns.
Those of marking, joining, starting again and region names are of what the loops are lent: a valid level, or a base and marks that passed 1 to 8, and kernels that are accepted where a new base climbs; that of the census is of accepted pyramids.
"""

ENTRIES_BEHIND = """
The laws behind them: `strung_turns` and `along_all`, each dart of a kernel once in its string (Strings.antt); `run_queued` and `run_within`, searches over one set of flags queue each dart once (Queues.antt); `orbit_searched`, a search is what the contract of `orbit` leaves (Searching.antt); `walk_unlimited`, the limit of turns in the definition of a reading by levels is never reached (ByLevels.antt).
The definitions are held by `small_strings`, `small_levels`, `small_walk`, `small_stop`, `small_count` and `small_marking` (Small.antt).
"""

BOUNDS_TEXT = """
## Derived from machine code: instructions

x86-64 instructions of the library's own code that one call runs, at most.
The bound holds of every input for which the lines of the table hold, and these are of these archives and no others, built from crates/ as git has it under tree {tree}:

{archives}

All blocks of machine code that a call can run are one graph, with a copy of a function for each place that calls it.
Each line of bench/bound/loops.table bounds how often some loops are run, over the whole call.
Weights for the lines, found by linear programming, make a bound; that they do is checked again in fractions (`bench/bound/bound.py check`, which needs Python and objdump alone), so that neither solver nor measurement is believed.
A function whose code isn't the table's fails by name, and so does a loop without a line.

'Accepted' is of calls that answer 0, of accepted pyramids.
'reads' are the base entries read: what the call returns, or the most that is proved above.
'The same': no better bound was derived for accepted calls than for any input.
Coefficients are rounded up.
"""

LIBRARY_TEXT = """
memset and memcpy are the C library's, and their instructions are not in the bounds: a station adds what its own take.
Calls of them and their bytes, at most, by the same derivation; sizes are constants of the code, or as the table says.
'Seen' are the most instructions that they took in one call of the search below, with the C library of that run.
"""

LEANS_TEXT = """
## What the bounds lean on

{lines} lines, each with the source function and the loop that it is of, and who says so:
"""

THEOREMS_TEXT = """
**Proved.** Theorems that lines cite; tests/pages.py looks that each stands where it is said to.
"""

SEEN_TEXT = """
**Seen in the code, without theorem.** Lines that depend on the data; a search that breaks one fails.
"""

SEARCH_TEXT = """
## Measured: the dearest calls found

`bench/bound.sh` looks for dear inputs: small pyramids side by side (pairs, late-pairs, squares) and chains as the linear program's dearest way has them (chain); the maps of the bench (bench, contraction); cells of all darts and long walks (adversarial); damage found at the last place (last); inputs good and damaged, drawn at random (random); and small changes to the dearest found so far (climb).
Each call is counted one by one, held to its bound and to every line of the table, and every jump to the graph.
This run: {how}.

Of accepted calls, the nearest to its bound, and the one that took most, as a part of the most for accepted calls at n = 4, N = 4,096, h = 32.
"""

STACK_TEXT = """
## Measured: stack

Bytes, read out of the compiled code by tests/stack.py: callees of the library included, memset and memcpy not.
To each come up to 128 bytes below (the calling convention's red zone).
They don't depend on N or content; zg_read_by_levels calls itself once for each level, and the figure is for level 32.
Local arrays are the reason of the large ones: the darts strung by kernel, 8,192 and 512 bytes, wherever a pyramid is climbed; new Λ and Δ; queues, 8,192 bytes each, sets of darts and the rows chosen, 4,096 each, wherever orbits are searched; a flag for each dart of an import, 2,048; in taking and writing a part of 128 bytes.
"""

ASSUMED = """
## Assumed

- objdump decodes the archives' machine code as the processor does, and the linker leaves it as it is.
- An indirect jump goes to an entry of the table that the nearest address loaded before it names: its index is an enum's byte.
- The loops and ways that a line names are those of the source that it names. This was read in the machine code, line by line; a search that breaks a line would show it.
- Lent memory doesn't overlap, as zompelgors.h asks; n is 4 at most, else a job refuses (rows and pairs are then 5 and 6).
- A contract can't forbid work that is thrown away (docs/TRUST.md): that the loops are those that the definitions count is read in the code.
"""


# ---------------------------------------------------------------- rows of tables


def row(*fields):
    return "| " + " | ".join(str(field) for field in fields) + " |"


def table(header, rows):
    return "\n".join(["", row(*header), "|" + "---|" * len(header), *rows]) + "\n"


def number(x):
    return f"{ceil(x):,}"


def written(bound):
    """A bound as the page has it: coefficients rounded up to hundredths."""
    text = ""
    for unit, k in bound.items():
        up = ceil(100 * k) / 100
        size = f"{abs(up):,.2f}".rstrip("0").rstrip(".")
        sign = " − " if up < 0 else " + " if text else ""
        text += sign + (size if unit == "1" else f"{size} {unit.replace('(l+1)reads', '(l+1)·reads')}")
    return text or "0"


def lent_rows():
    return [row(name, what, text, number(most)) for name, (what, text, most) in LENT.items()]


def read_rows():
    return [row(what, text, where, number(most)) for what, text, most, where in READS]


def ordered(tool):
    """The functions in the page's order."""
    return [name for name in LENT if name in tool.exported] + [n for n in tool.exported if n not in LENT]


def bound_rows(tool):
    for top in ordered(tool):
        accepted, any_ = tool.instructions(top, "accepted"), tool.instructions(top, "any")
        most = number(worst(accepted, top, "accepted")), number(worst(any_, top, "any"))
        yield row(top, written(accepted), most[0], "the same" if accepted == any_ else written(any_), most[1])


def library_rows(tool, found):
    for top in ordered(tool):
        calls, bytes_ = tool.calls(top), tool.bytes(top)
        if not calls:
            continue
        most = worst(calls, top, "any"), worst(bytes_, top, "any")
        seen = number(float(found["calls", top]["library"]))
        yield row(top, written(calls), number(most[0]), written(bytes_), number(most[1]), seen)


def kind_rows(tool):
    counts = defaultdict(int)
    for line in tool.table.lines:
        counts[line.kind] += 1
    return [row(kind, counts[kind], KINDS[kind]) for kind in KINDS]


THEOREM = re.compile(r"`([^`]+)` \((crates/[^)]+)\)")


def theorems(lines):
    """(name, file) of the theorems that lines cite, with these lines."""
    found = defaultdict(list)
    for line in lines:
        for cited in THEOREM.findall(line.reason) if line.kind == "theorem" else []:
            found[cited].append(line)
    return found


def lost_theorems(lines):
    """Theorems that don't stand where they are said to."""
    for name, file in theorems(lines):
        path = ROOT / file
        if not path.is_file() or not re.search(rf"^\s*(?:pub )?{re.escape(name)} :", path.read_text(encoding="utf-8"), re.M):
            yield f"bench/bound/loops.table cites {name}, which isn't in {file}"


def sources_of(tree):
    """The text of each crate's sources, as git has crates/ under a tree; nothing where it hasn't the tree."""
    run = subprocess.run(["git", "-C", str(ROOT), "archive", tree], capture_output=True)
    if run.returncode:
        return {}
    packed = run.stdout
    texts = {}
    with tarfile.open(fileobj=io.BytesIO(packed)) as files:
        for member in files:
            crate, *inside = member.name.split("/")
            if inside[:1] == ["src"] and member.name.endswith(".rt"):
                texts[crate] = texts.get(crate, "") + files.extractfile(member).read().decode("utf-8")
    return texts


def lost_sources(lines):
    """Source functions that lines name and that the sources of the archives, by the tree that the page names, haven't."""
    tree = re.search(r"as git has it under tree (\w+):", (ROOT / "docs" / "BUDGETS.md").read_text(encoding="utf-8"))[1]
    texts = sources_of(tree)
    for line in lines:
        for crate, name in re.findall(r"\b([a-z_]+)::([a-z_0-9]+)", line.source):
            if not re.search(rf"\bfn {name}\b", texts.get(crate, "")):
                yield f"bench/bound/loops.table:{line.number} names {crate}::{name}, which is no function of the sources under tree {tree}"


def theorem_rows(lines):
    for (name, file), cited in sorted(theorems(lines).items()):
        yield row(f"`{name}` in {file}", "; ".join(dict.fromkeys(f"{line.source}: {line.right if line.limit else 'never'}" for line in cited)))


def seen_rows(lines):
    told = {}
    for line in lines:
        if line.kind == "seen":
            told.setdefault((line.source, line.reason), []).append(line)
    for (source, reason), same in told.items():
        yield row(source, "; ".join(dict.fromkeys(line.right for line in same)), reason)


def kept(found, word, top):
    return found.get((word, top))


def search_rows(tool, found):
    for top in ordered(tool):
        told, near, dear = found["calls", top], kept(found, "nearest", top), kept(found, "dearest", top)
        most = worst(tool.instructions(top, "accepted"), top, "accepted")
        part = f"{100 * float(near['count']) / float(near['bound']):.1f} %"
        size = f"n = {near['n']}, N = {int(near['N']):,}, h = {near['h']}"
        of_worst = f"{100 * float(dear['count']) / float(most):.1f} %"
        yield row(top, number(int(told["calls"])), number(int(told["refused"])), part, near["group"], size,
                  number(int(dear["count"])), of_worst)


def stack_rows(stacks):
    with open(stacks, encoding="utf-8") as lines:
        taken = sorted(((int(line.split()[0]), line.split()[1]) for line in lines), reverse=True)
    return [row(name, number(size)) for size, name in taken]


# ---------------------------------------------------------------- the page


def read_found(name):
    """What the search printed: (word, function) -> its fields."""
    found = {}
    with open(name, encoding="utf-8") as lines:
        for line in lines:
            words = line.split()
            if words and words[0] in ("calls", "nearest", "refused", "dearest"):
                found[words[0], words[1]] = dict(word.split("=", 1) for word in words[2:])
    return found


def archives(tool):
    files = sorted({f.archive for f in tool.functions.values()})
    return "\n".join(f"- {Path(f).name}, SHA-256 {hashlib.sha256(Path(f).read_bytes()).hexdigest()}" for f in files)


ENTRIES = [
    ("a check; taking, writing, decimation, a census, starting again and regions begin or end with one", "(2n+8)g; (n+8)g where no kernel is refused", "`check_reads_lem`, `check_accepted` in Entries.antt"),
    ("zg_add", "(2n+8)g, with g of the mark row too", "`add_reads_lem` in Adds.antt"),
    ("zg_read", "1 + 2N; where a neighbour is found, the count answered", "`walk_entries_lem`, `found_entries` in Walks.antt"),
    ("zg_unfold", "(n+1)N(1 + 2N); of accepted pyramids as above", "`level_entries_lem` in Walks.antt"),
    ("zg_unfold_all", "no theorem adds them up: its tests read as a check's, and its sums turn g times at most, four entries a turn as seen in the code", "`check_reads_lem` in Entries.antt, `pyramid_turns` in crates/facts/proofs/Turns.antt"),
    ("zg_read_by_levels", "1 + 2N; at most l calls above level 0 for each entry and one more; of accepted pyramids the direct walk's count", "`levels_work`, `calls_above`, `accepted_work` in ByLevels.antt"),
    ("zg_mark_cells", "3(n+1)N in its searches", "`marking_queues` in Searches.antt"),
    ("zg_census", "2(2n+8)g + n(n+1)s", "`census_reads` in Jobs.antt"),
    ("zg_join", "(3n+8)g; refused (5n+16)g", "`join_reads`, `join_reads_refused` in Jobs.antt"),
    ("zg_rebase", "(2n+12)g", "`rebase_reads` in Jobs.antt"),
    ("zg_regions", "(2n+8)g + (n+1)N", "`regions_reads` in Jobs.antt"),
]


def proved():
    lent = table(("Function", "Lent", "Bytes", "n = 4, N = 4,096"), lent_rows())
    reads = table(("Call", "Base entries read, at most", "Where it is said", "n = 4, N = 4,096"), read_rows())
    entries = table(("Call", "Entries of rows and table, at most", "Theorem, in crates/turns/proofs"), [row(*line) for line in ENTRIES])
    return OPENING + lent + READS_TEXT + reads + READS_BEHIND + ENTRIES_TEXT + entries + ENTRIES_BEHIND


def page(tool, found, stacks, how, tree="unknown"):
    found = read_found(found)
    bounds = table(("Function", "Accepted", "Most", "Any input", "Most, of any input"), bound_rows(tool))
    header = ("Function", "Calls", "Most calls", "Bytes set and copied", "Most bytes", "Seen")
    library = table(header, library_rows(tool, found))
    leans = table(("Kind", "Lines", "Who says so"), kind_rows(tool))
    cited = table(("Theorem", "Of which loops"), theorem_rows(tool.table.lines))
    seen = list(seen_rows(tool.table.lines))
    seen = SEEN_TEXT + table(("Source and loop", "At most", "Why"), seen) if seen else ""
    header = ("Function", "Calls counted", "Refused", "Nearest to its bound", "in", "with", "Dearest", "of the worst")
    search = table(header, search_rows(tool, found))
    stack = table(("Function", "Stack"), stack_rows(stacks))
    return (proved() + BOUNDS_TEXT.format(archives=archives(tool), tree=tree) + bounds + LIBRARY_TEXT + library
            + LEANS_TEXT.format(lines=len(tool.table.lines)) + leans + THEOREMS_TEXT + cited + seen
            + SEARCH_TEXT.format(how=how) + search + STACK_TEXT + stack + ASSUMED)


def disagreements(tool, name, found):
    """What the page hasn't of this tool's bounds, and calls of the search that are dearer than the page has them."""
    printed = Path(name).read_text(encoding="utf-8").splitlines()
    for due in bound_rows(tool):
        if due not in printed:
            yield f"{name} hasn't the row: {due}"
    for line in lost_theorems(tool.table.lines):
        yield line
    near = read_found(found)
    for top in ordered(tool):
        if ("nearest", top) not in near:
            yield f"the search made no accepted call of {top}"
