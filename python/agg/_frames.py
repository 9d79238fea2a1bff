"""Data frames by the dataframe interchange protocol, `__dataframe__`: those of Polars, PyArrow and others, without any of them.

https://data-apis.org/dataframe-protocol/latest/API.html

A frame of pandas is asked for its values by its own methods, since by the protocol pandas 1.5 has no types with nulls, and takes long.
"""

from __future__ import annotations

import ctypes
import itertools
import struct
from typing import Any, List, Sequence

from ._columns import Column
from .errors import WrongWidth

# The numbers of the protocol.
_INT, _UINT, _FLOAT, _BOOL, _STRING, _CATEGORICAL = 0, 1, 2, 20, 21, 23
_NULL_NAN, _NULL_SENTINEL, _NULL_BITS, _NULL_BYTES = 1, 2, 3, 4
_CPU = 1
_CODES = {
    (_INT, 8): "b", (_INT, 16): "h", (_INT, 32): "i", (_INT, 64): "q",
    (_UINT, 8): "B", (_UINT, 16): "H", (_UINT, 32): "I", (_UINT, 64): "Q",
    (_FLOAT, 16): "e", (_FLOAT, 32): "f", (_FLOAT, 64): "d", (_BOOL, 8): "B",
}  # fmt: skip
# By the bits of a float: from this integer on, it may have been rounded from another.
_ROUNDED = {16: 2**11, 32: 2**24, 64: 2**53}


def _bytes_of(buffer: Any) -> bytes:
    if buffer.__dlpack_device__()[0] != _CPU:
        raise TypeError("the data frame is not in main memory")
    return ctypes.string_at(buffer.ptr, buffer.bufsize) if buffer.bufsize else b""


def _bits(data: bytes, first: int, size: int) -> List[int]:
    return [data[place >> 3] >> (place & 7) & 1 for place in range(first, first + size)]


def _plain(buffer: Any, dtype: Any, first: int, size: int) -> List[Any]:
    """The values of a buffer of numbers or bits."""
    kind, bits, _, endianness = dtype
    data = _bytes_of(buffer)
    if kind == _BOOL and bits == 1:
        return _bits(data, first, size)
    code = _CODES.get((kind, bits))
    if code is None or endianness not in ("=", "|", "<"):
        raise TypeError(f"a column of kind {kind}, {bits} bits and byte order {endianness} is not bigint, boolean or text")
    return list(struct.unpack_from(f"={size}{code}", data, first * struct.calcsize(f"={code}")))


def _strings(buffers: Any, first: int, size: int) -> List[Any]:
    buffer, dtype = buffers["offsets"]
    offsets = _plain(buffer, (_INT, *dtype[1:]), first, size + 1)
    data = _bytes_of(buffers["data"][0])
    return [data[begin:end].decode("utf-8", "surrogateescape") for begin, end in zip(offsets, offsets[1:])]


def _is_null(column: Any, buffers: Any, values: List[Any], first: int) -> List[bool]:
    """Of each value whether it is a null."""
    how, sentinel = column.describe_null
    if how == _NULL_NAN:
        return [value != value for value in values]
    if how == _NULL_SENTINEL:
        return [value == sentinel for value in values]
    if how in (_NULL_BITS, _NULL_BYTES) and buffers["validity"] is not None:
        buffer, dtype = buffers["validity"]
        if how == _NULL_BITS:
            mask = _bits(_bytes_of(buffer), first, len(values))
        else:
            mask = _plain(buffer, (_UINT, 8, *dtype[2:]), first, len(values))
        return [bit == sentinel for bit in mask]
    return [False] * len(values)


def _whole(value: float, bits: int) -> Any:
    """A float of so many bits that stands for one integer, as pandas makes them where a column has nulls, is that integer."""
    return int(value) if value.is_integer() and abs(value) < _ROUNDED.get(bits, 2**53) else value


def _values(column: Any) -> List[Any]:
    """The values of a column of one chunk, None where there is none."""
    kind = column.dtype[0]
    size = column.size() if callable(column.size) else column.size
    if size == 0:
        return []
    buffers, first = column.get_buffers(), column.offset
    if kind == _STRING:
        values = _strings(buffers, first, size)
    elif kind == _CATEGORICAL:
        buffer, dtype = buffers["data"]
        values = _plain(buffer, dtype, first, size)
    else:
        buffer, _ = buffers["data"]
        values = _plain(buffer, column.dtype, first, size)
    nulls = _is_null(column, buffers, values, first)
    if kind == _CATEGORICAL:
        names = _values(column.describe_categorical["categories"])
        values = [None if null else names[value] for value, null in zip(values, nulls)]
    elif kind == _FLOAT:
        values = [None if null else _whole(value, column.dtype[1]) for value, null in zip(values, nulls)]
    elif kind == _BOOL:
        values = [None if null else bool(value) for value, null in zip(values, nulls)]
    elif any(nulls):
        values = [None if null else value for value, null in zip(values, nulls)]
    return values


def _pandas_values(series: Any) -> List[Any]:
    """The values of a column of pandas, None where there is none."""
    values: List[Any] = series.astype(object).tolist()
    nulls = series.isna()
    if nulls.any():
        values = [None if null else value for value, null in zip(values, nulls.tolist())]
    if series.dtype.kind == "f":
        # The type of a sparse column has that of its values.
        bits = 8 * getattr(series.dtype, "subtype", series.dtype).itemsize
        values = [value if value is None else _whole(value, bits) for value in values]
    return values


def columns_of(columns: Sequence[Column], frame: Any) -> List[List[Any]]:
    """The values of each column of a data frame, which has columns of these names, in any order, and no other."""
    is_pandas = type(frame).__module__.startswith("pandas.")
    frame = frame if is_pandas else frame.__dataframe__()
    found, wanted = list(map(str, frame.columns if is_pandas else frame.column_names())), [column.name for column in columns]
    if sorted(found) != sorted(wanted):
        raise WrongWidth(f"columns found: {', '.join(found)}, expected: {', '.join(wanted)}")
    if is_pandas:
        return [_pandas_values(frame[name]) for name in wanted]
    chunks = list(frame.get_chunks())
    return [list(itertools.chain.from_iterable(_values(chunk.get_column_by_name(name)) for chunk in chunks)) for name in wanted]
