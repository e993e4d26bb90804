"""Pyramids of generalized maps in folded form: the proved library from Python.

    from zompelgors import Pyramid
    pyramid = Pyramid.open("star.record")
    pyramid.read(level=2, involution=0, dart=7)    # Link(neighbour=10, count=5, since=2)

Pyramid has the jobs as methods, zompelgors.jobs as functions on memory that is lent. A refusal is raised as Refused."""
from .jobs import (
    ABSENT,
    CELLS,
    CONTRACT,
    LEVELS,
    MOST_DARTS,
    MOST_ENTRIES,
    MOST_HEIGHT,
    MOST_LEVELS,
    MOST_PARTNER_DARTS,
    MOST_RECORD,
    STAY,
    SUMS,
    WORDS,
    AllLevels,
    Base,
    Census,
    Link,
    Partner,
    Reading,
    Survivors,
    Taken,
    Unfolding,
    add,
    census,
    check,
    check_base,
    convert,
    decimation,
    export_map,
    import_map,
    join,
    mark_cells,
    marks_of,
    read,
    read_by_levels,
    rebase,
    regions,
    row,
    survivors,
    take,
    unfold,
    unfold_all,
    version,
    write,
)
from .pyramid import Cells, Pyramid
from .refusals import Number, Refused

__version__ = "6.3.0"
__all__ = [name for name in dir() if not name.startswith("_") and name not in ("jobs", "pyramid", "refusals")]
