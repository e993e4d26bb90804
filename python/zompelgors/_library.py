"""The shared library of the release: found, loaded once, its functions declared."""
from __future__ import annotations

import ctypes
import functools
import os
import pathlib

U8, U16, U32, I32 = ctypes.c_uint8, ctypes.c_uint16, ctypes.c_uint32, ctypes.c_int32
NAME = "libzompelgors.so"
# The version of the interface that this module is written for; a later minor one serves too.
MAJOR, MINOR = 6, 3


def _answer(name: str, *fields: tuple[str, type]) -> type[ctypes.Structure]:
    """An answer, which begins with its refusal."""
    return type(name, (ctypes.Structure,), {"_fields_": [("refusal", Refusal), *fields]})


class Refusal(ctypes.Structure):
    """zg_refusal."""

    _fields_ = [("number", U16), ("level", U16), ("involution", U16), ("dart", U16)]


Reading = _answer("Reading", ("count", U32), ("neighbour", U16))
Link = _answer("Link", ("count", U32), ("neighbour", U16), ("since", U8))
Unfolding = _answer("Unfolding", ("count", U32), ("since", U8))
Count = _answer("Count", ("count", U32))
Height = _answer("Height", ("height", U8))
Part = _answer("Part", ("unfolded", U8), ("start", U16), ("length", U16))
Record = _answer("Record", ("n", U8), ("h", U8), ("darts", U16))
Written = _answer("Written", ("length", U32))
Factor = _answer("Factor", ("empty", U8), ("factor", ctypes.c_double))
Base = _answer("Base", ("darts", U16), ("h", U8))

_SLICE = [ctypes.c_void_p, ctypes.c_size_t]
_PYRAMID = [U8, U16, U8, *_SLICE * 3]
_QUESTION = [*_PYRAMID, U8, U8, U16]

# For each function of the headers its answer and what it is lent and asked.
FUNCTIONS = {
    "version": (U32, []),
    "check_base": (Refusal, [U8, U16, *_SLICE]),
    "check": (Refusal, [*_PYRAMID, *_SLICE]),
    "add": (Height, [*_PYRAMID, *_SLICE * 2]),
    "marks_of": (Refusal, [U8, U16, U8, *_SLICE * 2, U8, *_SLICE]),
    "read": (Link, _QUESTION),
    "read_by_levels": (Reading, _QUESTION),
    "unfold": (Unfolding, [*_PYRAMID, U8, *_SLICE]),
    "unfold_all": (Refusal, [*_PYRAMID, *_SLICE * 3]),
    "row": (Part, [U8, U16, U8, *_SLICE * 2, U8, U8]),
    "survivors": (Count, [U16, U8, *_SLICE, U8, *_SLICE]),
    "mark_cells": (Refusal, [U8, U16, *_SLICE, U8, *_SLICE]),
    "take": (Record, [*_SLICE * 5]),
    "write": (Written, [*_PYRAMID, *_SLICE * 2]),
    "decimation": (Factor, [*_PYRAMID, *_SLICE, U8]),
    "census": (Refusal, [*_PYRAMID, *_SLICE * 3]),
    "import": (Refusal, [U16, *_SLICE * 3]),
    "export": (Refusal, [U8, U16, *_SLICE * 3]),
    "join": (Height, [*_PYRAMID, *_SLICE, U8]),
    "rebase": (Base, [*_PYRAMID, *_SLICE, U8, *_SLICE]),
    "regions": (Refusal, [*_PYRAMID, *_SLICE, U8, *_SLICE]),
}


def places() -> list[str]:
    """Where the library is looked for: a file that ZOMPELGORS_LIBRARY names, or beside this module, in the lib/ of the
    release that this module lies in, and where the system looks."""
    named = os.environ.get("ZOMPELGORS_LIBRARY")
    if named:
        return [named]
    here = pathlib.Path(__file__).resolve().parent
    release = [folder / "lib" / NAME for folder in list(here.parents)[:5]]
    return [str(file) for file in [here / NAME, *release] if file.is_file()] + [NAME]


@functools.lru_cache(maxsize=None)
def load() -> ctypes.CDLL:
    """The library, with its functions declared."""
    library = _open()
    library.zg_version.restype, library.zg_version.argtypes = FUNCTIONS["version"]
    found = library.zg_version()
    if found >> 16 != MAJOR or found >> 8 & 255 < MINOR:
        raise ImportError(f"{library._name} is of version {version_text(found)}, and {MAJOR}.{MINOR} or later is needed")
    for name, (answer, asked) in FUNCTIONS.items():
        function = getattr(library, "zg_" + name)
        function.restype, function.argtypes = answer, asked
    return library


def _open() -> ctypes.CDLL:
    said = []
    for place in places():
        try:
            return ctypes.CDLL(place)
        except OSError as error:
            said.append(str(error))
    raise ImportError("there is no library to load (ZOMPELGORS_LIBRARY can name it): " + "; ".join(said))


def version_text(version: int) -> str:
    """6.3.0, of the number that the library gives."""
    return f"{version >> 16}.{version >> 8 & 255}.{version & 255}"
