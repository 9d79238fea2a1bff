"""An answer's table as values of Python."""

from __future__ import annotations

import collections
import csv
import functools
import io
from typing import Any, Callable, Dict, List, Sequence, Tuple

from ._columns import Column
from ._rows import NULL

_VALUES: Dict[str, Callable[[str], Any]] = {
    "bigint": int,
    "numeric": int,
    "boolean": {"t": True, "f": False}.__getitem__,
    "text": str,
}


def columns_of(columns: Sequence[Column], table: str) -> List[List[Any]]:
    """The values of each column of a table in CSV: None for a null, int, bool and str."""
    records = csv.reader(io.StringIO(table, newline=""), strict=True)
    next(records)
    found: List[List[Any]] = []
    fields = list(zip(*records)) or [() for _ in columns]
    for column, values in zip(columns, fields):
        value_of = _VALUES[column.kind]
        found.append([None if field == NULL else value_of(field) for field in values])
    return found


@functools.lru_cache(maxsize=256)
def row_type(names: Tuple[str, ...]) -> Any:
    """The named tuple of these names. A name that no field of Python's can have, or that stands twice, is `_` and its place."""
    base = collections.namedtuple("Row", names, rename=True)  # type: ignore[misc]

    def reduce(row: Any) -> Any:
        return _row, (names, tuple(row))

    return type("Row", (base,), {"__slots__": (), "__module__": __name__, "__reduce__": reduce})


def _row(names: Tuple[str, ...], values: Tuple[Any, ...]) -> Any:
    return row_type(names)(*values)
