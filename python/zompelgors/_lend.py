"""Memory lent to the library for one call: whatever has a buffer of the right type as it is, all else as a copy."""
from __future__ import annotations

import array
import ctypes
import operator
from typing import Any, Iterable


class _View(ctypes.Structure):
    """A buffer, as the interpreter hands it out (Py_buffer)."""

    _fields_ = [
        ("buf", ctypes.c_void_p),
        ("obj", ctypes.c_void_p),
        ("len", ctypes.c_ssize_t),
        ("itemsize", ctypes.c_ssize_t),
        ("readonly", ctypes.c_int),
        ("ndim", ctypes.c_int),
        ("format", ctypes.c_char_p),
        ("shape", ctypes.c_void_p),
        ("strides", ctypes.c_void_p),
        ("suboffsets", ctypes.c_void_p),
        ("internal", ctypes.c_void_p),
    ]


_WRITABLE, _FORMAT, _C_CONTIGUOUS = 0x1, 0x4, 0x38
_get = ctypes.pythonapi.PyObject_GetBuffer
_get.argtypes, _get.restype = [ctypes.py_object, ctypes.POINTER(_View), ctypes.c_int], ctypes.c_int
_release = ctypes.pythonapi.PyBuffer_Release
_release.argtypes, _release.restype = [ctypes.POINTER(_View)], None

# For each kind of entry, by its code in an array: its bytes, the codes of a buffer that fit, and what it is called.
_KINDS = {
    "B": (1, "B", "bytes"),
    "H": (2, "H", "16-bit numbers"),
    "I": (4, "IL", "32-bit numbers"),
    "Q": (8, "QLN", "64-bit numbers"),
    "i": (4, "il", "signed 32-bit numbers"),
}

# At length 0 the library asks for any address that isn't null.
_NOWHERE = ctypes.create_string_buffer(8)


def whole(name: str, number: Any, most: int) -> int:
    """A number that fits its C type; another is an error of the caller, and no refusal."""
    value = operator.index(number)
    if not 0 <= value <= most:
        raise ValueError(f"{name} is {value}, and must be 0 to {most}")
    return value


def zeros(kind: str, length: int) -> array.array[Any]:
    """Room for so many entries."""
    return array.array(kind, bytes(length * _KINDS[kind][0]))


def fits(thing: Any, kind: str, writable: bool = False) -> bool:
    """Whether a thing can be lent as it is."""
    loan = Loan()
    try:
        return loan._view(thing, kind, writable) is not None
    finally:
        loan.end()


def copied(thing: Any, kind: str) -> array.array[Any]:
    """A copy by value: of a buffer of another type, of one with gaps, or of a sequence."""
    try:
        entries: Iterable[Any] = _flat(memoryview(thing).tolist())
    except (TypeError, NotImplementedError):
        # No buffer, or one of another byte order, which a view can't list but its owner can.
        entries = _flat(thing.tolist()) if hasattr(thing, "tolist") else thing
    return array.array(kind, [operator.index(entry) for entry in entries])


def _flat(values: list[Any]) -> list[Any]:
    """The entries of a list that may hold lists."""
    while values and isinstance(values[0], list):
        values = [entry for inner in values for entry in inner]
    return values


class Loan:
    """What is lent to one call, to be given back when it has ended."""

    def __init__(self) -> None:
        self._views: list[_View] = []
        self._copies: list[array.array[Any]] = []
        self._ranges: list[tuple[int, int, bool]] = []

    def __enter__(self) -> "Loan":
        return self

    def __exit__(self, *_: object) -> None:
        self.end()

    def end(self) -> None:
        """Gives all back."""
        while self._views:
            _release(ctypes.byref(self._views.pop()))

    def _view(self, thing: Any, kind: str, writable: bool) -> _View | None:
        """The thing's own memory, if it has some of the right type, in one piece and aligned."""
        view = _View()
        try:
            _get(thing, ctypes.byref(view), _FORMAT | _C_CONTIGUOUS | (_WRITABLE if writable else 0))
        except (TypeError, BufferError, ValueError):
            return None
        self._views.append(view)
        size, codes, _ = _KINDS[kind]
        code = (view.format or b"B").decode().lstrip("@=<")
        # Where nothing is lent the address is none of the buffer's.
        aligned = not view.len or view.buf % size == 0
        return view if view.itemsize == size and len(code) == 1 and code in codes and aligned else None

    def _place(self, view: _View, size: int, writes: bool) -> tuple[int, int]:
        start = view.buf if view.len else ctypes.addressof(_NOWHERE)
        if view.len:
            self._ranges.append((start, start + view.len, writes))
        return start, view.len // size

    def read(self, thing: Any, kind: str) -> tuple[int, int]:
        """Address and length of memory that is only read."""
        view = self._view(thing, kind, False)
        if view is None:
            self._copies.append(copied(thing, kind))
            view = self._view(self._copies[-1], kind, False)
        assert view is not None
        return self._place(view, _KINDS[kind][0], False)

    def write(self, name: str, thing: Any, kind: str) -> tuple[int, int]:
        """Address and length of memory that is written: it must be the caller's own."""
        view = self._view(thing, kind, True)
        if view is None:
            raise TypeError(f"{name} must be a buffer of {_KINDS[kind][2]} that can be written, in one piece")
        return self._place(view, _KINDS[kind][0], True)

    def apart(self) -> None:
        """Memory that is written may overlap nothing else that is lent to the call."""
        ordered = sorted(self._ranges)
        last, last_writes = 0, False
        for start, end, writes in ordered:
            if start < last and (writes or last_writes):
                raise ValueError("memory that is written overlaps other memory lent to the same call")
            if end > last:
                last, last_writes = end, writes
            else:
                last_writes = last_writes or writes
