"""Columns: those of a batch, and those of an answer, as the library tells them."""

from __future__ import annotations

from typing import List, NamedTuple


class Column(NamedTuple):
    """A column, and its kind: 'bigint', 'boolean' or 'text', and of an answer 'numeric', an integer of more than 64 bits."""

    name: str
    kind: str


def columns_of(printed: str) -> List[Column]:
    """The columns that a text tells, as `city text, amount bigint`."""
    return [Column(*column.split(" ")) for column in printed.split(", ")]
