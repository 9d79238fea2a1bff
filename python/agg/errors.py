"""Refusals, as exceptions: one class for each, of the name by which a script of agg_tool replies it.

What was refused changed nothing. An exception has the sentence, which is for people, and the place, as far as one is known. All are
`Refused`; those of a query, a batch, a file and a merge have a class of their own above them, and are a `ValueError` too.

`InUse` and `Forked` are no refusals, but say that a program may not use a summary there. They change nothing, either.
"""

from __future__ import annotations

from typing import Dict, NamedTuple, Optional, Tuple, Type

__all__ = ["Forked", "InUse", "Place", "Refused", "RefusedQuery", "RefusedBatch", "RefusedFile", "RefusedMerge"]


class InUse(RuntimeError):
    """A signal's handler, or a `__del__`, was to change or close the summary on which its thread is inside a call."""


class Forked(RuntimeError):
    """Another thread was using the summary when this process was forked off, so that it can't be used here."""


class Place(NamedTuple):
    """Where a refusal is. What is not known, or says nothing of it, is None. The first byte, row and column are 0."""

    byte: Optional[int] = None
    """A byte of the query's text."""
    row: Optional[int] = None
    """A row of the batch."""
    column: Optional[int] = None
    """A column of that row."""
    origin: Optional[int] = None
    number: Optional[int] = None
    """The number of a batch of that origin."""

    def __repr__(self) -> str:
        known = ", ".join(f"{name}={value}" for name, value in zip(self._fields, self) if value is not None)
        return f"Place({known})"


class Refused(Exception):
    """A call that was refused. Nothing has changed.

    `name` is the refusal's name, `status` its number, `sentence` why, and `place` where. `path` is the batch file of which it was said, if
    `agg.dask` read one, and else None.
    """

    status: int = 0

    def __init__(self, sentence: str, place: Place = Place(), path: Optional[str] = None) -> None:
        super().__init__(sentence, place, path)
        self.sentence = sentence
        self.place = place
        self.path = path

    @property
    def name(self) -> str:
        return type(self).__name__

    def __str__(self) -> str:
        return f"{self.path}: {self.name}: {self.sentence}" if self.path else f"{self.name}: {self.sentence}"


class UnknownRefusal(Refused):
    """A refusal that this module has no class for, of a library that is newer."""

    def __init__(self, sentence: str, place: Place = Place(), path: Optional[str] = None, status: int = 0, name: str = "") -> None:
        super().__init__(sentence, place, path)
        self.status = status
        self._name = name

    @property
    def name(self) -> str:
        return self._name


class NoMemory(Refused, MemoryError):
    """There was no memory."""

    status = 1


class RefusedQuery(Refused, ValueError):
    """The columns or the query, or those of a summary file."""


class RefusedBatch(Refused, ValueError):
    """A batch."""


class RefusedFile(Refused, ValueError):
    """The bytes of a summary."""


class RefusedMerge(Refused, ValueError):
    """What does not fit together."""


class BadCommand(RefusedQuery):
    """A text is not UTF-8."""

    status = 10


class LimitOutOfRange(RefusedQuery):
    """The limit is not 65,536 to 1,099,511,627,776."""

    status = 13


class BadSchema(RefusedQuery):
    """The text of the columns is none."""

    status = 14


class Syntax(RefusedQuery):
    """A byte of the query begins no token, or a token that no query can go on with."""

    status = 20


class NumberTooLarge(RefusedQuery):
    """An integer of the query is out of the range of 64 bits."""

    status = 21


class NoSuchColumn(RefusedQuery):
    """The query names a column that is not there."""

    status = 22


class NotGrouped(RefusedQuery):
    """A column outside of an aggregate is not in GROUP BY."""

    status = 23


class TypeMismatch(RefusedQuery):
    """An operand or an argument is of the wrong kind."""

    status = 24


class AggregateHere(RefusedQuery):
    """An aggregate stands in WHERE or FILTER."""

    status = 25


class TooMany(RefusedQuery):
    """There are too many items, keys or calls, or the text is too long."""

    status = 26


class TooDeep(RefusedQuery):
    """Conditions are nested too deeply."""

    status = 27


class AmbiguousOrder(RefusedQuery):
    """A name in ORDER BY is that of two different items."""

    status = 28


class BadBatchHead(RefusedBatch):
    """The head of a batch is bad, or its origin or its number is out of range."""

    status = 30


class TooManyRows(RefusedBatch):
    """More rows are told than the 1,048,576 that a batch may have."""

    status = 31


class RowCount(RefusedBatch):
    """There are more or fewer rows than told."""

    status = 32


class WrongWidth(RefusedBatch):
    """A row has more or fewer fields than there are columns, or others."""

    status = 33


class BadField(RefusedBatch):
    """A field stands for no value of its column."""

    status = 34


class NotASummary(RefusedFile):
    """The bytes do not begin as a summary file does."""

    status = 40


class Truncated(RefusedFile):
    """The bytes are cut short."""

    status = 41


class Trailing(RefusedFile):
    """Bytes follow the end of the summary."""

    status = 42


class NotCanonical(RefusedFile):
    """The bytes are not in their canonical form."""

    status = 43


class OutOfRange(RefusedFile):
    """A number of the summary is out of range."""

    status = 44


class BadPacked(RefusedFile):
    """A packed row or key is damaged."""

    status = 45


class BadState(RefusedFile):
    """A state is damaged."""

    status = 46


class DifferentQuery(RefusedMerge):
    """A summary is of another query, or of other columns."""

    status = 50


class OriginDisagrees(RefusedMerge, RefusedBatch):
    """One number of an origin has two different batches."""

    status = 51


class InputTooLong(RefusedFile):
    """The summary's bytes would be more than 67,108,864."""

    status = 70


_CLASSES: Tuple[Type[Refused], ...] = (
    NoMemory, BadCommand, LimitOutOfRange, BadSchema, Syntax, NumberTooLarge, NoSuchColumn, NotGrouped, TypeMismatch, AggregateHere,
    TooMany, TooDeep, AmbiguousOrder, BadBatchHead, TooManyRows, RowCount, WrongWidth, BadField, NotASummary, Truncated, Trailing,
    NotCanonical, OutOfRange, BadPacked, BadState, DifferentQuery, OriginDisagrees, InputTooLong,
)  # fmt: skip

BY_STATUS: Dict[int, Type[Refused]] = {one.status: one for one in _CLASSES}
"""The class of each status that a call of the library can end in."""

__all__ += ["UnknownRefusal", *(one.__name__ for one in _CLASSES)]
