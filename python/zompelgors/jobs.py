"""Every job of the library as a function. Rows, tables and marks are lent: numpy arrays, arrays, bytes and whatever else
has a buffer of the right type as they are, sequences of numbers as copies. What a job writes can be lent too; where it
isn't, the job makes room and hands it back. A refusal is raised; include/zompelgors.h says which number comes when, and
what it leaves behind."""
from __future__ import annotations

import array
import os
import pathlib
import subprocess
from typing import TYPE_CHECKING, Any, NamedTuple, Optional, Sequence, Union

from ._lend import Loan, whole, zeros
from ._library import load, version_text
from .refusals import Refused

if TYPE_CHECKING:
    from _typeshed import ReadableBuffer, WriteableBuffer

    Readable = Union[ReadableBuffer, Sequence[int]]
    Writable = WriteableBuffer

STAY = 255
CONTRACT = 8
ABSENT = 65_535
MOST_DARTS = 4_096
MOST_PARTNER_DARTS = 2_048
MOST_HEIGHT = 32
MOST_LEVELS = MOST_HEIGHT  # its older name
MOST_ENTRIES = 5 * MOST_DARTS
MOST_RECORD = 49_180
WORDS = 64
CELLS = 165
SUMS = 33
LEVELS = 33

_BYTE, _TWO = 255, 65_535


class Reading(NamedTuple):
    """A neighbour, and the base entries read to find it."""

    neighbour: int
    count: int  # type: ignore[assignment]


class Link(NamedTuple):
    """A neighbour, the base entries read to find it, and the lowest level on which the dart already has it."""

    neighbour: int
    count: int  # type: ignore[assignment]
    since: int


class Unfolding(NamedTuple):
    """Of a level: the base entries read in all, since which level all its links stand, and the explicit level."""

    count: int  # type: ignore[assignment]
    since: int
    table: Any


class AllLevels(NamedTuple):
    """All explicit levels, one behind the other, level 0 first; 33 counts of base entries read, and 33 levels since which
    all links of a level stand."""

    tables: Any
    counts: Any
    since: Any


class Survivors(NamedTuple):
    """The number of darts on a level, and a bit for each in 64 words of 64 bits."""

    count: int  # type: ignore[assignment]
    words: Any


class Taken(NamedTuple):
    """A record's pyramid, which is checked, and its top level."""

    n: int
    h: int
    darts: int
    rows: Any
    lambda_: Any
    delta: Any
    table: Any


class Census(NamedTuple):
    """33 rows of five counts of cells, one behind the other, and 33 alternating sums."""

    cells: Any
    sums: Any


class Partner(NamedTuple):
    """The edge row and the vertex row of a 2D combinatorial map."""

    edges: Any
    vertices: Any


class Base(NamedTuple):
    """N and h of a new base, and the old numbers of its darts."""

    darts: int
    h: int
    old: Any


class _Call:
    """One call: numbers, and memory lent for as long as it takes."""

    def __init__(self, name: str) -> None:
        self._function = getattr(load(), "zg_" + name)
        self._loan = Loan()
        self._given: list[int] = []

    def number(self, name: str, value: int, most: int = _BYTE) -> _Call:
        self._given.append(whole(name, value, most))
        return self

    def sizes(self, n: int, darts: int, h: int) -> _Call:
        return self.number("n", n).number("darts", darts, _TWO).number("h", h)

    def read(self, thing: Readable, kind: str) -> _Call:
        self._given.extend(self._loan.read(thing, kind))
        return self

    def write(self, name: str, thing: Writable, kind: str) -> _Call:
        self._given.extend(self._loan.write(name, thing, kind))
        return self

    def folded(self, rows: Readable, lambda_: Readable, delta: Readable) -> _Call:
        return self.read(rows, "H").read(lambda_, "B").read(delta, "B")

    def table(self, table: Writable) -> _Call:
        return self.write("table", table, "H")

    def answer(self) -> Any:
        """What the library answers, or its refusal, raised."""
        self._loan.apart()
        answer = self._function(*self._given)
        refusal = getattr(answer, "refusal", answer)
        if refusal.number:
            raise Refused(refusal.number, refusal.level, refusal.involution, refusal.dart)
        return answer

    def __enter__(self) -> _Call:
        return self

    def __exit__(self, *_: object) -> None:
        self._loan.end()


def _room(lent: Optional[Writable], kind: str, length: int) -> Any:
    """What is lent to be written, or room of our own: of all levels at most."""
    return zeros(kind, min(length, LEVELS * MOST_ENTRIES)) if lent is None else lent


def _entries(n: int, darts: int) -> int:
    return (whole("n", n, _BYTE) + 1) * whole("darts", darts, _TWO)


def version() -> str:
    """The version of the library, as 6.3.0."""
    return version_text(load().zg_version())


def check_base(n: int, darts: int, rows: Readable) -> None:
    """Checks a base."""
    with _Call("check_base") as call:
        call.number("n", n).number("darts", darts, _TWO).read(rows, "H").answer()


def check(
    n: int, darts: int, h: int, rows: Readable, lambda_: Readable, delta: Readable, table: Optional[Writable] = None
) -> Any:
    """Checks a whole pyramid: its top level, in the table."""
    room = _room(table, "H", _entries(n, darts))
    with _Call("check") as call:
        call.sizes(n, darts, h).folded(rows, lambda_, delta).table(room).answer()
    return room


def add(
    n: int,
    darts: int,
    h: int,
    rows: Readable,
    lambda_: Writable,
    delta: Writable,
    marks: Readable,
    table: Optional[Writable] = None,
) -> int:
    """Adds a level on top, with the marks as kernel h: the new height. Λ and Δ are changed; a table that is lent holds
    the new top level."""
    room = _room(table, "H", _entries(n, darts))
    with _Call("add") as call:
        call.sizes(n, darts, h).read(rows, "H").write("lambda_", lambda_, "B").write("delta", delta, "B")
        return int(call.read(marks, "B").table(room).answer().height)


def marks_of(
    n: int, darts: int, h: int, lambda_: Readable, delta: Readable, level: int, marks: Optional[Writable] = None
) -> Any:
    """The mark row of a level, read back."""
    room = _room(marks, "B", whole("darts", darts, _TWO))
    with _Call("marks_of") as call:
        call.sizes(n, darts, h).read(lambda_, "B").read(delta, "B").number("level", level)
        call.write("marks", room, "B").answer()
    return room


def read(
    n: int,
    darts: int,
    h: int,
    rows: Readable,
    lambda_: Readable,
    delta: Readable,
    level: int,
    involution: int,
    dart: int,
) -> Link:
    """One neighbour on a level by the direct walk, on any tables, checked before or not."""
    with _Call("read") as call:
        call.sizes(n, darts, h).folded(rows, lambda_, delta).number("level", level)
        found = call.number("involution", involution).number("dart", dart, _TWO).answer()
        return Link(found.neighbour, found.count, found.since)


def read_by_levels(
    n: int,
    darts: int,
    h: int,
    rows: Readable,
    lambda_: Readable,
    delta: Readable,
    level: int,
    involution: int,
    dart: int,
) -> Reading:
    """The same question answered level by level."""
    with _Call("read_by_levels") as call:
        call.sizes(n, darts, h).folded(rows, lambda_, delta).number("level", level)
        found = call.number("involution", involution).number("dart", dart, _TWO).answer()
        return Reading(found.neighbour, found.count)


def unfold(
    n: int,
    darts: int,
    h: int,
    rows: Readable,
    lambda_: Readable,
    delta: Readable,
    level: int,
    table: Optional[Writable] = None,
) -> Unfolding:
    """Unfolds a whole level into the table."""
    room = _room(table, "H", _entries(n, darts))
    with _Call("unfold") as call:
        call.sizes(n, darts, h).folded(rows, lambda_, delta).number("level", level)
        found = call.table(room).answer()
        return Unfolding(found.count, found.since, room)


def unfold_all(
    n: int,
    darts: int,
    h: int,
    rows: Readable,
    lambda_: Readable,
    delta: Readable,
    tables: Optional[Writable] = None,
    counts: Optional[Writable] = None,
    since: Optional[Writable] = None,
) -> AllLevels:
    """Checks a whole pyramid and unfolds all its levels."""
    room = _room(tables, "H", (whole("h", h, _BYTE) + 1) * _entries(n, darts))
    found = AllLevels(room, _room(counts, "I", LEVELS), _room(since, "B", LEVELS))
    with _Call("unfold_all") as call:
        call.sizes(n, darts, h).folded(rows, lambda_, delta).write("tables", found.tables, "H")
        call.write("counts", found.counts, "I").write("since", found.since, "B").answer()
    return found


def row(
    n: int, darts: int, h: int, base: ReadableBuffer, unfolded: ReadableBuffer, level: int, involution: int
) -> memoryview:
    """A row of a level: a part of the base for level 0, of the unfolded level for any other, and no copy. Both must be
    buffers of 16-bit numbers."""
    with _Call("row") as call:
        call.sizes(n, darts, h).read(base, "H").read(unfolded, "H").number("level", level)
        part = call.number("involution", involution).answer()
    lent = memoryview(unfolded if part.unfolded else base)
    return lent.cast("B").cast("H")[part.start : part.start + part.length]


def survivors(darts: int, h: int, lambda_: Readable, level: int, words: Optional[Writable] = None) -> Survivors:
    """The darts of a level: how many, and a bit for each."""
    room = _room(words, "Q", WORDS)
    with _Call("survivors") as call:
        call.number("darts", darts, _TWO).number("h", h).read(lambda_, "B").number("level", level)
        return Survivors(call.write("words", room, "Q").answer().count, room)


def mark_cells(n: int, darts: int, table: Readable, dimension: int, marks: Optional[Writable] = None) -> Any:
    """The mark row of the removable cells of one dimension that fall into two parts, on an explicit level."""
    room = _room(marks, "B", whole("darts", darts, _TWO))
    with _Call("mark_cells") as call:
        call.number("n", n).number("darts", darts, _TWO).read(table, "H").number("dimension", dimension)
        call.write("marks", room, "B").answer()
    return room


def take(
    record: Readable,
    rows: Optional[Writable] = None,
    lambda_: Optional[Writable] = None,
    delta: Optional[Writable] = None,
    table: Optional[Writable] = None,
) -> Taken:
    """Takes a record and checks its pyramid. What isn't lent is made as long as the record asks; what is lent is handed
    back as it is, with the pyramid at its front."""
    rooms = [
        _room(lent, kind, most)
        for lent, kind, most in zip(
            (rows, lambda_, delta, table), "HBBH", (MOST_ENTRIES, MOST_DARTS, MOST_DARTS, MOST_ENTRIES)
        )
    ]
    with _Call("take") as call:
        call.read(record, "B").write("rows", rooms[0], "H").write("lambda_", rooms[1], "B")
        found = call.write("delta", rooms[2], "B").table(rooms[3]).answer()
    entries = _entries(found.n, found.darts)
    for lent, room, length in zip((rows, lambda_, delta, table), rooms, (entries, found.darts, found.darts, entries)):
        if lent is None:
            del room[length:]
    return Taken(found.n, found.h, found.darts, *rooms)


def write(
    n: int,
    darts: int,
    h: int,
    rows: Readable,
    lambda_: Readable,
    delta: Readable,
    table: Optional[Writable] = None,
    buffer: Optional[Writable] = None,
) -> Any:
    """The record of a pyramid, which is checked: its bytes, or its length where a buffer for them is lent."""
    room = _room(table, "H", _entries(n, darts))
    own = bytearray(MOST_RECORD) if buffer is None else buffer
    with _Call("write") as call:
        call.sizes(n, darts, h).folded(rows, lambda_, delta).table(room)
        length = call.write("buffer", own, "B").answer().length
    return bytes(memoryview(own)[:length]) if buffer is None else length


def decimation(
    n: int,
    darts: int,
    h: int,
    rows: Readable,
    lambda_: Readable,
    delta: Readable,
    level: int,
    table: Optional[Writable] = None,
) -> Optional[float]:
    """By which factor a level shrinks to the next; None where the next has no dart."""
    room = _room(table, "H", _entries(n, darts))
    with _Call("decimation") as call:
        call.sizes(n, darts, h).folded(rows, lambda_, delta).table(room)
        found = call.number("level", level).answer()
        return None if found.empty else float(found.factor)


def census(
    n: int,
    darts: int,
    h: int,
    rows: Readable,
    lambda_: Readable,
    delta: Readable,
    table: Optional[Writable] = None,
    cells: Optional[Writable] = None,
    sums: Optional[Writable] = None,
) -> Census:
    """The cells of each dimension of each level, at 5 l + i, and their alternating sums, which are the Euler numbers only
    while every cell is a ball."""
    room = _room(table, "H", _entries(n, darts))
    counts, all_sums = _room(cells, "H", CELLS), _room(sums, "i", SUMS)
    with _Call("census") as call:
        call.sizes(n, darts, h).folded(rows, lambda_, delta).table(room)
        call.write("cells", counts, "H").write("sums", all_sums, "i").answer()
    return Census(counts, all_sums)


def import_map(m: int, edges: Readable, vertices: Readable, rows: Optional[Writable] = None) -> Any:
    """The base rows of a 2D combinatorial map of m darts."""
    room = _room(rows, "H", 6 * whole("m", m, _TWO))
    with _Call("import") as call:
        call.number("m", m, _TWO).read(edges, "H").read(vertices, "H").write("rows", room, "H").answer()
    return room


def export_map(
    n: int, darts: int, rows: Readable, edges: Optional[Writable] = None, vertices: Optional[Writable] = None
) -> Partner:
    """The two rows that yield a base."""
    half = whole("darts", darts, _TWO) // 2
    both = Partner(_room(edges, "H", half), _room(vertices, "H", half))
    with _Call("export") as call:
        call.number("n", n).number("darts", darts, _TWO).read(rows, "H")
        call.write("edges", both.edges, "H").write("vertices", both.vertices, "H").answer()
    return both


def join(
    n: int,
    darts: int,
    h: int,
    rows: Readable,
    lambda_: Writable,
    delta: Readable,
    level: int,
    table: Optional[Writable] = None,
) -> int:
    """Joins the kernels of a level and the next: the new height. Λ is changed."""
    room = _room(table, "H", _entries(n, darts))
    with _Call("join") as call:
        call.sizes(n, darts, h).read(rows, "H").write("lambda_", lambda_, "B").read(delta, "B").table(room)
        return int(call.number("level", level).answer().height)


def rebase(
    n: int,
    darts: int,
    h: int,
    rows: Writable,
    lambda_: Writable,
    delta: Writable,
    level: int,
    table: Optional[Writable] = None,
    old: Optional[Writable] = None,
) -> Base:
    """Starts again from a level. Rows, Λ and Δ are changed: the new base stands at their fronts."""
    room = _room(table, "H", _entries(n, darts))
    numbers = _room(old, "H", whole("darts", darts, _TWO))
    with _Call("rebase") as call:
        call.sizes(n, darts, h).write("rows", rows, "H").write("lambda_", lambda_, "B").write("delta", delta, "B")
        found = call.table(room).number("level", level).write("old", numbers, "H").answer()
    if old is None:
        del numbers[found.darts :]
    return Base(found.darts, found.h, numbers)


def regions(
    n: int,
    darts: int,
    h: int,
    rows: Readable,
    lambda_: Readable,
    delta: Readable,
    level: int,
    table: Optional[Writable] = None,
    names: Optional[Writable] = None,
) -> Any:
    """For each dart of the base the name of its region on a level."""
    room, row_of_names = _room(table, "H", _entries(n, darts)), _room(names, "H", whole("darts", darts, _TWO))
    with _Call("regions") as call:
        call.sizes(n, darts, h).folded(rows, lambda_, delta).table(room).number("level", level)
        call.write("names", row_of_names, "H").answer()
    return row_of_names


def convert(old: bytes, program: Union[str, os.PathLike[str], None] = None) -> bytes:
    """A new record of an old one, by the proved program: the one named, the one that ZOMPELGORS_CONVERT names, or the
    one beside this module or in the libexec/ of the release that it lies in."""
    done = subprocess.run([str(program or _convert_program())], input=old, stdout=subprocess.PIPE, stderr=subprocess.PIPE)
    said = done.stderr.decode(errors="replace").split()
    if said[:1] == ["refused"]:
        raise Refused(*map(int, said[1:5]))
    if done.returncode or not done.stdout:
        raise OSError(f"the program convert ended with status {done.returncode}: {' '.join(said)}")
    return done.stdout


def _convert_program() -> str:
    named = os.environ.get("ZOMPELGORS_CONVERT")
    here = pathlib.Path(__file__).resolve().parent
    released = (folder / "libexec" / "zompelgors" / "convert" for folder in list(here.parents)[:5])
    found = [str(file) for file in [here / "zompelgors-convert", *released] if file.is_file()]
    return named or (found + ["zompelgors-convert"])[0]
