"""The summary."""

from __future__ import annotations

import operator
import os
from typing import TYPE_CHECKING, Any, Dict, List, NamedTuple, Optional, Tuple, Type, Union

from . import _answers, _columns, _library, _rows
from .errors import BadBatchHead, BadField, Forked, LimitOutOfRange, TooManyRows

if TYPE_CHECKING:
    import pandas
    import pyarrow

USUAL_LIMIT = 4_194_304
"""The limit of whoever has no other wish, in bytes."""

Bytes = Union[bytes, bytearray, memoryview]


class Delivered(NamedTuple):
    """What became of a batch: `reply` is 'folded', 'early' or 'known'.

    Of one that is folded, the batches of its origin from 1 to `upto` are known now without a gap; else `upto` is None. One that is early
    waits for those before it. Of one that is known nothing changed.
    """

    reply: str
    upto: Optional[int] = None

    def __str__(self) -> str:
        return self.reply if self.upto is None else f"{self.reply} upto {self.upto}"


class Known(NamedTuple):
    """What is known of an origin: the batches 1 to `upto`, and those that came `early`."""

    upto: int
    early: Tuple[int, ...] = ()


def _number(value: Any, bits: int) -> Optional[int]:
    """An integer that fits into so many bits, or None: ctypes would cut it."""
    number = operator.index(value)
    return number if 0 <= number < 1 << bits else None


def _seeds() -> Tuple[int, int]:
    """Random seeds, so that nobody can choose keys that make a table slow. No result depends on them."""
    random = os.urandom(16)
    return int.from_bytes(random[:8], "big"), int.from_bytes(random[8:], "big")


def _text(text: str) -> bytes:
    # What is no character becomes what is no UTF-8, which is refused.
    return text.encode("utf-8", "surrogatepass")


def _bytes(data: Bytes) -> bytes:
    """A copy of what can be changed, since other threads run while a call works."""
    return data if isinstance(data, bytes) else bytes(memoryview(data))


class Summary:
    """The state of a grouping query: of each origin it knows the batches 1 to some number, as groups, and those that came early.

    A batch that is fed twice, and a summary that is merged twice, change nothing. Summaries that know the same batches are equal, and the
    same bytes, in whatever order and however often these came. The bytes are those of agg_tool's summary files.

    >>> import agg
    >>> north = agg.Summary(columns="city text, amount bigint", query="SELECT city, sum(amount) FROM batches GROUP BY city")
    >>> north.feed_rows(0, 1, [("oslo", 5), ("bergen", 7), ("oslo", None)])
    Delivered(reply='folded', upto=1)
    >>> north.answer()
    [Row(city='bergen', sum=7), Row(city='oslo', sum=5)]

    `columns` and `query` are texts as agg_tool takes them. `limit` is on the blocks of a table of groups, in bytes, 65,536 to
    1,099,511,627,776: what does not keep within it is spilled, in memory. No result depends on it.

    Threads may share a summary: its calls wait for each other. While one works, other threads run. A signal's handler, also that of
    Ctrl-C, runs when it has ended: there the same summary can be saved and asked, but to change or close it raises `errors.InUse`. In the
    child of a fork a summary that another thread was using raises `errors.Forked`; any other is a copy.

    What is refused raises a class of `agg.errors`, and changes nothing.
    """

    __slots__ = ("_handle", "_limit", "_columns", "_query", "_answer_columns", "__weakref__")

    def __init__(self, *, columns: str, query: str, limit: int = USUAL_LIMIT) -> None:
        schema, text = _text(columns), _text(query)
        self._open(_library.LIBRARY.agg_new, (schema, len(schema), text, len(text)), limit)

    def _open(self, function: Any, texts: Tuple[Any, ...], limit: int) -> None:
        size = _number(limit, 64)
        if size is None:
            raise LimitOutOfRange(f"{limit} is out of range (65536 to 1099511627776 bytes)")
        self._handle = _library.Handle()
        self._handle.change(function, *texts, size, *_seeds())
        self._limit = size
        self._query = self._handle.ask(_library.LIBRARY.agg_query).decode()
        self._columns = self._handle.ask(_library.LIBRARY.agg_columns).decode()
        self._answer_columns = _columns.columns_of(self._handle.ask(_library.LIBRARY.agg_answer_columns).decode())

    @classmethod
    def from_bytes(cls: Type[Summary], data: Bytes, *, limit: int = USUAL_LIMIT) -> Summary:
        """The summary of the bytes of a summary file, in either version of the format. Any bytes may be given."""
        data = _bytes(data)
        summary = cls.__new__(cls)
        summary._open(_library.LIBRARY.agg_load, (data, len(data)), limit)
        return summary

    @property
    def columns(self) -> str:
        """The canonical text of the columns."""
        return self._columns

    @property
    def query(self) -> str:
        """The canonical text of the query."""
        return self._query

    @property
    def limit(self) -> int:
        """The limit, in bytes."""
        return self._limit

    # Feeding and merging.

    def _delivered(self, kind: int, upto: int) -> Delivered:
        return Delivered("folded", upto) if kind == 0 else Delivered("early" if kind == 1 else "known")

    def feed(self, batch: Union[Bytes, str]) -> Delivered:
        """Feeds a batch file: records in CSV, of which the first is `batch,ORIGIN,NUMBER,ROWS`."""
        data = _text(batch) if isinstance(batch, str) else _bytes(batch)
        return self._delivered(*self._handle.deliver(_library.LIBRARY.agg_feed, data, len(data)))

    def feed_rows(self, origin: int, number: int, rows: Any) -> Delivered:
        """Feeds the batch of an origin, 0 to 1,023, and a number, 1 to 4,294,967,295.

        `rows` are tuples, or other sequences, with a value for each column in order; or dicts with each column's; or a data frame, of any
        library that has the interchange protocol, with columns of these names. A bigint is an int, a boolean a bool, a text a str, and a
        null None. Of a data frame a float that is an integer is taken too, and NaN as a null. The text `\\N` can't be fed: it is how a
        null is written.
        """
        head = _number(origin, 32), _number(number, 32)
        if None in head:
            raise BadBatchHead(f"origin {origin}, number {number}: an origin is 0 to 1023, a number 1 to 4294967295")
        columns = _columns.columns_of(self._columns)
        values, data = _rows.as_csv(columns, rows)
        count = len(values[0])
        if _number(count, 32) is None:
            raise TooManyRows(f"{count} rows: a batch has at most 1048576")
        try:
            return self._delivered(*self._handle.deliver(_library.LIBRARY.agg_feed_rows, *head, count, data, len(data)))
        except BadField as why:
            raise _rows.with_value(columns, values, why) from None

    def merge(self, other: Union[Summary, Bytes]) -> None:
        """Learns what another summary knows, or what the bytes of one do. The other stays as it is."""
        if not isinstance(other, Summary):
            data = _bytes(other)
            self._handle.change(_library.LIBRARY.agg_merge_bytes, data, len(data))
        elif other._handle is not self._handle:
            self._handle.merge(other._handle)

    def copy(self) -> Summary:
        """A summary of its own that knows the same."""
        return type(self).from_bytes(bytes(self), limit=self._limit)

    __copy__ = copy

    def __or__(self, other: Summary) -> Summary:
        if not isinstance(other, Summary):
            return NotImplemented
        both = self.copy()
        both.merge(other)
        return both

    def __ior__(self, other: Summary) -> Summary:
        if not isinstance(other, Summary):
            return NotImplemented
        self.merge(other)
        return self

    # What is known.

    def known(self) -> Dict[int, Known]:
        """What is known of each origin of which something is, by rising origin."""
        found = {}
        for line in self._handle.ask(_library.LIBRARY.agg_known).decode().splitlines():
            words = line.split(" ")
            found[int(words[1])] = Known(int(words[3]), tuple(map(int, words[5:])))
        return found

    def missing(self) -> Dict[int, List[range]]:
        """The numbers that are missing before an early batch, as ranges, of each origin that has an early one."""
        found = {}
        for origin, (upto, early) in self.known().items():
            ends = [upto, *early]
            gaps = [range(before + 1, after) for before, after in zip(ends, ends[1:]) if after > before + 1]
            if gaps:
                found[origin] = gaps
        return found

    # The answer.

    def _values(self) -> List[List[Any]]:
        """Those of each column of the answer."""
        return _answers.columns_of(self._answer_columns, self.to_csv())

    def answer(self) -> List[Any]:
        """The rows of the answer, in its order, as named tuples of int, bool, str and None.

        A name is the item's alias, or else that of its column or function. One that stands twice, or that is no name of Python's, is `_`
        and its place, the first being 0: an alias gives it another.
        """
        row = _answers.row_type(tuple(column.name for column in self._answer_columns))
        return list(map(row._make, zip(*self._values())))

    def to_csv(self) -> str:
        """The answer in CSV: a header and a line for each row, null being `\\N`, true `t` and false `f`."""
        return self._handle.answer(False).decode()

    def to_text(self) -> str:
        """The answer in columns below one another, to be read."""
        return self._handle.answer(True).decode()

    def to_pandas(self) -> pandas.DataFrame:
        """The answer as a data frame of pandas, with its types for nulls: Int64, boolean and string.

        A column of which a sum has more than 64 bits is of Python's integers.
        """
        import pandas

        kinds = {"bigint": "Int64", "numeric": "Int64", "boolean": "boolean", "text": "string"}
        series = {}
        for place, (column, found) in enumerate(zip(self._answer_columns, self._values())):
            kind: Any = kinds[column.kind]
            if column.kind == "numeric" and any(value is not None and not -(2**63) <= value < 2**63 for value in found):
                kind = object
            series[place] = pandas.Series(found, dtype=kind)
        frame = pandas.DataFrame(series)
        frame.columns = pandas.Index([column.name for column in self._answer_columns])
        return frame

    def to_arrow(self) -> pyarrow.Table:
        """The answer as a table of Arrow: int64, bool and string; a sum is a decimal128 of 38 digits, which holds any."""
        import pyarrow

        kinds = {
            "bigint": pyarrow.int64(),
            "numeric": pyarrow.decimal128(38, 0),
            "boolean": pyarrow.bool_(),
            "text": pyarrow.string(),
        }
        arrays = [pyarrow.array(found, type=kinds[column.kind]) for column, found in zip(self._answer_columns, self._values())]
        return pyarrow.table(arrays, names=[column.name for column in self._answer_columns])

    # The summary as a value.

    def __bytes__(self) -> bytes:
        """The summary file, at most 67,108,864 bytes."""
        return self._handle.ask(_library.LIBRARY.agg_save)

    def __eq__(self, other: object) -> bool:
        if not isinstance(other, Summary):
            return NotImplemented
        return self._handle is other._handle or bytes(self) == bytes(other)

    __hash__ = None  # type: ignore[assignment]

    def __reduce__(self) -> Tuple[Any, ...]:
        return _from_pickle, (type(self), bytes(self), self._limit)

    def __repr__(self) -> str:
        """The query, how many origins are known, and how many groups the answer has, which is counted anew where something has changed."""
        try:
            groups, origins = self._handle.count_rows(), len(self.known())
        except ValueError:
            return f"<agg.Summary {self._query}: closed>"
        except Forked:
            return f"<agg.Summary {self._query}: in use when its process was forked off>"
        return f"<agg.Summary {self._query}: {_counted(origins, 'origin')}, {_counted(groups, 'group')}>"

    def close(self) -> None:
        """Gives back the memory, which else is given back with the last reference. Calls raise a ValueError then."""
        self._handle.close()

    def __enter__(self) -> Summary:
        return self

    def __exit__(self, *_: object) -> None:
        self.close()


def _counted(number: int, what: str) -> str:
    return f"{number} {what}" if number == 1 else f"{number} {what}s"


def _from_pickle(kind: Type[Summary], data: bytes, limit: int) -> Summary:
    return kind.from_bytes(data, limit=limit)
