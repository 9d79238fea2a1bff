"""Rows of Python as records in CSV.

Columns are looked at whole: where all values have the type of their kind, which is the usual case, no value is touched by Python code.
"""

from __future__ import annotations

import operator
import re
from collections.abc import Mapping
from typing import Any, Iterable, List, Optional, Sequence, Tuple

from . import _frames
from ._columns import Column
from .errors import BadField, Place, WrongWidth

NULL = "\\N"
_FLAGS = {True: "t", False: "f", None: NULL}
_NONE = type(None)
# What stands in quotes: an empty text, which alone would be no record, and one with a character that means something to CSV. A byte order
# mark does at the very start.
_MARKS = ',"\r\n\ufeff'
_QUOTED = re.compile(f"[{_MARKS}]|^$")


class _NoField(Exception):
    """A value that no field stands for, and why."""


def _bigint(value: Any) -> str:
    if not isinstance(value, bool) and type(value).__name__ not in ("bool_", "bool"):
        try:
            # Also of a class above int, whose text may be another.
            number = int(operator.index(value))
        except TypeError:
            pass
        else:
            if number.bit_length() > 64:
                raise _NoField("out of range (-9223372036854775808 to 9223372036854775807)")
            return str(number)
    raise _NoField(f"a bigint is an int, not a {type(value).__name__}")


def _boolean(value: Any) -> str:
    if isinstance(value, bool) or (type(value).__module__ == "numpy" and type(value).__name__ in ("bool_", "bool")):
        return _FLAGS[bool(value)]
    raise _NoField(f"a boolean is a bool, not a {type(value).__name__}")


def _text(value: Any) -> str:
    if not isinstance(value, str):
        raise _NoField(f"a text is a str, not a {type(value).__name__}")
    value = str.__str__(value)
    if value == NULL:
        raise _NoField("the text \\N cannot be fed, since it stands for null")
    try:
        value.encode()
    except UnicodeEncodeError as why:
        raise _NoField("a text cannot have an unpaired surrogate") from why
    return value


_FIELD = {"bigint": _bigint, "boolean": _boolean, "text": _text}


def _shown(value: Any) -> str:
    """A value as Python has it, at most 40 characters."""
    try:
        shown = repr(value)
    except ValueError:
        # Python writes no integer of more than some 4,300 digits.
        return f"an {type(value).__name__}"
    return shown if len(shown) <= 40 else shown[:37] + "..."


def _one_by_one(column: Column, number: int, values: Iterable[Any]) -> List[str]:
    field = _FIELD[column.kind]
    fields = []
    for row, value in enumerate(values):
        try:
            fields.append(NULL if value is None else field(value))
        except _NoField as why:
            sentence = f"row {row}, column {column.name} {column.kind}: {_shown(value)}: {why}"
            raise BadField(sentence, Place(row=row, column=number)) from None
    return fields


def _quoted(texts: List[str]) -> List[str]:
    """Fields in quotes where these are wanted."""
    joined = "".join(texts)
    if "" not in texts and not any(mark in joined for mark in _MARKS):
        return texts
    return ['"' + text.replace('"', '""') + '"' if _QUOTED.search(text) else text for text in texts]


def _fields(column: Column, number: int, values: List[Any]) -> List[str]:
    """The fields of a column's values."""
    types = set(map(type, values))
    if column.kind == "bigint" and types == {int} and max(values).bit_length() <= 64 and min(values).bit_length() <= 64:
        return list(map(str, values))
    if column.kind == "boolean" and types <= {bool, _NONE}:
        return list(map(_FLAGS.__getitem__, values))
    if not (column.kind == "text" and types == {str} and NULL not in values):
        values = _one_by_one(column, number, values)
    return _quoted(values) if column.kind == "text" else values


def _wrong_width(row: int, why: str) -> WrongWidth:
    return WrongWidth(f"row {row}: {why}", Place(row=row))


def _tuple_of(row: int, record: Any, columns: Sequence[Column]) -> Tuple[Any, ...]:
    """A record as a tuple in the order of the columns."""
    if isinstance(record, Mapping):
        for column in columns:
            if column.name not in record:
                raise _wrong_width(row, f"there is no {column.name}")
        if len(record) != len(columns):
            other = next(name for name in record if name not in {column.name for column in columns})
            raise _wrong_width(row, f"{other!r} is not a column")
        return tuple(record[column.name] for column in columns)
    if isinstance(record, (str, bytes)):
        raise TypeError(f"row {row} must be a tuple, a dict or another sequence of values, not a {type(record).__name__}")
    values = tuple(record)
    if len(values) != len(columns):
        raise _wrong_width(row, f"fields found: {len(values)}, expected: {len(columns)}")
    return values


def _transposed(columns: Sequence[Column], rows: List[Any]) -> List[List[Any]]:
    """The values of each column."""
    types = set(map(type, rows))
    width = len(columns)
    if types == {dict} and set(map(len, rows)) == {width}:
        try:
            return [list(map(operator.itemgetter(column.name), rows)) for column in columns]
        except KeyError:
            pass
    if not (all(issubclass(one, (tuple, list)) for one in types) and set(map(len, rows)) == {width}):
        rows = [_tuple_of(row, record, columns) for row, record in enumerate(rows)]
    return [list(map(operator.itemgetter(number), rows)) for number in range(width)]


def _first_bad(columns: Sequence[Column], values: List[List[Any]]) -> Optional[BadField]:
    """The first value that has no field, column by column."""
    for number, column in enumerate(columns):
        try:
            _one_by_one(column, number, values[number])
        except BadField as why:
            return why
    return None


def with_value(columns: Sequence[Column], values: Sequence[Sequence[Any]], why: BadField) -> BadField:
    """A refusal of the library, said of the row and the value that it was given here, in the place of a line and a field."""
    row, number = why.place.row, why.place.column
    if row is None or number is None:
        return why
    column, value = columns[number], values[number][row]
    reason = why.sentence.rpartition(": ")[2]
    return BadField(f"row {row}, column {column.name} {column.kind}: {_shown(value)}: {reason}", why.place)


def as_csv(columns: Sequence[Column], rows: Any) -> Tuple[List[List[Any]], bytes]:
    """The values of each column, and the records in CSV. What no field stands for is a `BadField`, another width a `WrongWidth`."""
    if hasattr(rows, "__dataframe__"):
        values = _frames.columns_of(columns, rows)
    else:
        rows = rows if isinstance(rows, (list, tuple)) else list(rows)
        values = _transposed(columns, list(rows)) if rows else [[] for _ in columns]
    count = len(values[0])
    if any(len(column) != count for column in values):
        raise WrongWidth("the columns of the data frame have different lengths")
    if count == 0:
        return values, b""
    fields = [_fields(column, number, values[number]) for number, column in enumerate(columns)]
    text = "\n".join(map(",".join, zip(*fields)))
    try:
        return values, text.encode() + b"\n"
    except UnicodeEncodeError as why:
        raise _first_bad(columns, values) or why from None
