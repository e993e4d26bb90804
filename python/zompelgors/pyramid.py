"""A folded pyramid, and the jobs that take one."""
from __future__ import annotations

import os
import pathlib
from typing import TYPE_CHECKING, Any, NamedTuple, Optional, Union

from . import jobs
from ._lend import copied, fits, whole, zeros
from .jobs import Link, Partner, Reading, Unfolding

if TYPE_CHECKING:
    from .jobs import Readable

    Path = Union[str, os.PathLike[str]]


class Cells(NamedTuple):
    """The cells of a level, by dimension from 0, and their alternating sum."""

    counts: tuple[int, ...]
    sum: int


def _kept(thing: Readable, kind: str) -> Any:
    """What can be lent as it is is kept as it is; of anything else a copy."""
    return thing if fits(thing, kind) else copied(thing, kind)


class Pyramid:
    """A pyramid in folded form: n, its height, the base rows, and Λ and Δ of each dart. It keeps what it is given where
    that has a buffer of the right type, so numpy arrays stay the caller's own, and change with it."""

    def __init__(self, n: int, height: int, rows: Readable, lambda_: Readable, delta: Readable) -> None:
        """Nothing is presumed of the tables: each job tests what it needs, and check() all."""
        self.n = n
        self.height = height
        self.rows = _kept(rows, "H")
        self.lambda_ = _kept(lambda_, "B")
        self.delta = _kept(delta, "B")

    @classmethod
    def base(cls, n: int, rows: Readable) -> Pyramid:
        """A base that is checked, of height 0."""
        kept = _kept(rows, "H")
        darts = memoryview(kept).nbytes // 2 // (whole("n", n, 255) + 1)
        jobs.check_base(n, darts, kept)
        delta = zeros("B", darts)
        for dart in range(darts):
            delta[dart] = n
        return cls(n, 0, kept, zeros("B", darts), delta)

    @classmethod
    def take(cls, record: Readable) -> Pyramid:
        """The pyramid of a record, which is checked."""
        taken = jobs.take(record)
        return cls(taken.n, taken.h, taken.rows, taken.lambda_, taken.delta)

    @classmethod
    def open(cls, path: Path) -> Pyramid:
        """The pyramid of a record file."""
        return cls.take(pathlib.Path(path).read_bytes())

    @classmethod
    def from_map(cls, edges: Readable, vertices: Readable) -> Pyramid:
        """The base of a partner's 2D combinatorial map."""
        row = _kept(edges, "H")
        return cls.base(2, jobs.import_map(memoryview(row).nbytes // 2, row, vertices))

    @property
    def darts(self) -> int:
        """N."""
        return memoryview(self.lambda_).nbytes

    def __repr__(self) -> str:
        return f"<Pyramid n {self.n}, N {self.darts}, h {self.height}>"

    def __eq__(self, other: object) -> bool:
        if not isinstance(other, Pyramid):
            return NotImplemented
        return self._content() == other._content()

    __hash__ = None  # type: ignore[assignment]

    def _content(self) -> tuple[object, ...]:
        tables = (self.rows, self.lambda_, self.delta)
        return (self.n, self.height, *(bytes(memoryview(table).cast("B")) for table in tables))

    @property
    def _lent(self) -> tuple[int, int, int, Any, Any, Any]:
        return self.n, self.darts, self.height, self.rows, self.lambda_, self.delta

    def check(self) -> Any:
        """Checks the whole pyramid: its top level."""
        return jobs.check(*self._lent)

    def record(self) -> bytes:
        """Its record."""
        return bytes(jobs.write(*self._lent))

    def save(self, path: Path) -> None:
        """Writes its record to a file, whole or not at all: it goes to a file beside it that is then renamed."""
        to = pathlib.Path(path)
        record, beside = self.record(), to.with_name(f".{to.name}.{os.getpid()}.new")
        try:
            with open(beside, "xb") as file:
                file.write(record)
                file.flush()
                os.fsync(file.fileno())
            os.replace(beside, to)
        except BaseException:
            beside.unlink(missing_ok=True)
            raise

    def add(self, marks: Readable) -> int:
        """Adds a level on top: the new height."""
        self.height = jobs.add(*self._lent, marks)
        return self.height

    def join(self, level: int) -> int:
        """Joins the kernels of a level and the next: the new height."""
        self.height = jobs.join(*self._lent, level)
        return self.height

    def rebase(self, level: int) -> Any:
        """Starts again from a level: the old numbers of its darts. The tables are new ones afterwards."""
        rows, lambda_, delta = copied(self.rows, "H"), copied(self.lambda_, "B"), copied(self.delta, "B")
        base = jobs.rebase(self.n, self.darts, self.height, rows, lambda_, delta, level)
        del rows[(self.n + 1) * base.darts :], lambda_[base.darts :], delta[base.darts :]
        self.height, self.rows, self.lambda_, self.delta = base.h, rows, lambda_, delta
        return base.old

    def marks(self, level: int) -> Any:
        """The mark row of a level."""
        return jobs.marks_of(self.n, self.darts, self.height, self.lambda_, self.delta, level)

    def mark_cells(self, dimension: int, level: Optional[int] = None) -> Any:
        """The mark row of the cells of one dimension that can be removed, on the top level or another."""
        table = self.unfold(self.height if level is None else level).table
        return jobs.mark_cells(self.n, self.darts, table, dimension)

    def read(self, level: int, involution: int, dart: int) -> Link:
        """One neighbour on a level, and since which level it stands."""
        return jobs.read(*self._lent, level, involution, dart)

    def read_by_levels(self, level: int, involution: int, dart: int) -> Reading:
        """The same question answered level by level."""
        return jobs.read_by_levels(*self._lent, level, involution, dart)

    def unfold(self, level: int) -> Unfolding:
        """A level written out."""
        return jobs.unfold(*self._lent, level)

    def row(self, level: int, involution: int) -> memoryview:
        """One involution of a level: of the base itself for level 0."""
        table = self.rows if level == 0 or level > self.height else self.unfold(level).table
        return jobs.row(self.n, self.darts, self.height, self.rows, table, level, involution)

    def survivors(self, level: int) -> list[int]:
        """The darts of a level."""
        words = jobs.survivors(self.darts, self.height, self.lambda_, level).words
        return [dart for dart in range(self.darts) if words[dart // 64] >> dart % 64 & 1]

    def decimation(self, level: int) -> Optional[float]:
        """By which factor a level shrinks to the next; None where the next has no dart."""
        return jobs.decimation(*self._lent, level)

    def census(self) -> list[Cells]:
        """The cells of each level."""
        cells, sums = jobs.census(*self._lent)
        starts = range(0, 5 * (self.height + 1), 5)
        return [Cells(tuple(cells[at : at + self.n + 1]), sums[at // 5]) for at in starts]

    def regions(self, level: int) -> Any:
        """For each dart of the base the name of its region on a level."""
        return jobs.regions(*self._lent, level)

    def levels(self) -> list[Unfolding]:
        """Checks the whole pyramid: all levels written out, level 0 first."""
        tables, counts, since = jobs.unfold_all(*self._lent)
        each = len(tables) // (self.height + 1)
        blocks = (tables[at : at + each] for at in range(0, len(tables), each))
        return [Unfolding(*found) for found in zip(counts, since, blocks)]

    def partner(self) -> Partner:
        """The partner's two rows that yield its base."""
        return jobs.export_map(self.n, self.darts, self.rows)
