"""Refusals: a number that says why, with the level, involution and dart where it was found."""
from __future__ import annotations

import enum


class Number(enum.IntEnum):
    """The numbers of refusal, by the names of the C header."""

    ACCEPTED = 0
    DIMENSION = 1
    DARTS = 2
    HEIGHT = 3
    LENGTH = 4
    STRAYS = 5
    NOT_TWICE = 6
    NOT_COMMUTING = 7
    MARKS = 8
    NOT_WHOLE = 9
    NOT_REMOVABLE = 10
    NO_LEVEL = 11
    NO_DART = 12
    NO_INVOLUTION = 13
    NO_PASS = 14
    TOO_LONG = 15
    ENDS_EARLY = 16
    OTHER_TAG = 17
    WRONG_LENGTH = 18
    BYTES_AFTER = 19
    FULL = 20
    TWO_TO_ONE = 21
    NO_ROWS = 22
    CONTRACTED = 23


TEXTS = (
    "accepted",
    "the dimension is not 1 to 4, or not 2 for a combinatorial map",
    "the number of darts is not 1 to 4096 (of a combinatorial map 2048), or a new base has none",
    "the height is above 32",
    "a length is not the one due",
    "an entry names no dart that is there",
    "an involution applied twice is not the identity",
    "two involutions do not commute",
    "a mark is not allowed",
    "a kernel is not made of whole cells",
    "a cell is not removable or not contractible",
    "the level asked is above the height, or too near it for a decimation or a join",
    "the dart asked is not on the level",
    "the involution or dimension asked is too large",
    "a walk meets a removed or contracted dart that it cannot pass",
    "a walk needs more than 1 + 2N reads",
    "the record ends early",
    "the record has another tag than the one due",
    "a field of the record has a wrong length",
    "bytes follow the end of the record",
    "a level is added at height 32",
    "a vertex row sends two darts to one",
    "no two rows yield the base",
    "regions have names only in a pyramid without contraction",
)


class Refused(Exception):
    """A job is refused. A field that says nothing is 0; in records the byte offset stands in place of the dart."""

    number: int
    level: int
    involution: int
    dart: int

    def __init__(self, number: int, level: int = 0, involution: int = 0, dart: int = 0) -> None:
        super().__init__(number, level, involution, dart)
        self.number = Number(number) if 0 <= number < len(TEXTS) else number
        self.level, self.involution, self.dart = level, involution, dart

    @property
    def fields(self) -> tuple[int, int, int, int]:
        """Number, level, involution and dart."""
        return int(self.number), self.level, self.involution, self.dart

    @property
    def text(self) -> str:
        """What the number says, in a phrase."""
        return TEXTS[self.number] if 0 <= self.number < len(TEXTS) else "no number of a refusal"

    def __str__(self) -> str:
        return "refused {} {} {} {}: {}".format(*self.fields, self.text)
