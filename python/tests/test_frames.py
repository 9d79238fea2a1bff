"""Data frames by the interchange protocol: of a small library of our own, which has each of its forms, and of pandas, Polars and PyArrow,
where they are installed. And answers as data frames."""

import array
import ctypes
import struct
import unittest

import agg
from tests.common import QUERY, answered, new, some_rows

try:
    import pandas
except ImportError:
    pandas = None
try:
    import pyarrow
except ImportError:
    pyarrow = None
try:
    import polars
except ImportError:
    polars = None

INT, UINT, FLOAT, BOOL, STRING, DATETIME, CATEGORICAL = 0, 1, 2, 20, 21, 22, 23


class Buffer:
    def __init__(self, data, device=1):
        self.data, self.device = data, device
        self.room = (ctypes.c_char * max(1, len(data))).from_buffer_copy(data or b"\0")

    @property
    def ptr(self):
        return ctypes.addressof(self.room)

    @property
    def bufsize(self):
        return len(self.data)

    def __dlpack_device__(self):
        return self.device, None


class Column:
    def __init__(self, size, dtype, data, null=(0, None), validity=None, offsets=None, categories=None, offset=0, device=1):
        self.count, self.dtype, self.describe_null, self.offset = size, dtype, null, offset
        self.parts = {"data": (Buffer(data, device), dtype), "validity": None, "offsets": None}
        if validity is not None:
            self.parts["validity"] = Buffer(validity), (BOOL, 8 if null[0] == 4 else 1, "b", "=")
        if offsets is not None:
            self.parts["offsets"] = Buffer(offsets[0]), (INT, offsets[1], "", "=")
        self.describe_categorical = {"is_ordered": False, "is_dictionary": True, "categories": categories}

    def size(self):
        return self.count

    def get_buffers(self):
        return self.parts


class Frame:
    def __init__(self, *chunks):
        self.chunks = chunks

    def __dataframe__(self, nan_as_null=False, allow_copy=True):
        return self

    def column_names(self):
        return iter(self.chunks[0])

    def get_chunks(self, n_chunks=None):
        return [Frame(chunk) for chunk in self.chunks]

    def get_column_by_name(self, name):
        return self.chunks[0][name]


def bits(values):
    found = bytearray((len(values) + 7) // 8)
    for place, value in enumerate(values):
        found[place // 8] |= bool(value) << place % 8
    return bytes(found)


def texts(values, width=64, **more):
    encoded = [(value or "").encode() for value in values]
    ends = [0]
    for text in encoded:
        ends.append(ends[-1] + len(text))
    mask = bits([value is not None for value in values])
    offsets = array.array({32: "i", 64: "q"}[width], ends).tobytes(), width
    return Column(len(values), (STRING, 8, "u", "="), b"".join(encoded), (3, 0), mask, offsets, **more)


def numbers(values, code="q", kind=INT):
    plain = array.array(code, [value or 0 for value in values])
    mask = bytes(value is None for value in values)
    return Column(len(values), (kind, plain.itemsize * 8, code, "="), plain.tobytes(), (4, 1), mask)


def flags(values):
    return Column(len(values), (BOOL, 1, "b", "="), bits(values), (3, 0), bits([value is not None for value in values]))


class Protocol(unittest.TestCase):
    def same(self, frame, rows, columns="city text, amount bigint, paid boolean"):
        query = "SELECT count(*) FROM batches"
        one, other = new(columns=columns, query=query), new(columns=columns, query=query)
        one.feed_rows(0, 2, frame)
        other.feed_rows(0, 2, rows)
        self.assertEqual(bytes(one), bytes(other))

    def frame(self, rows, **more):
        city, amount, paid = zip(*rows)
        return {"paid": flags(paid), "city": texts(city, **more), "amount": numbers(amount)}

    def test_nulls_by_bits_and_bytes(self):
        for seed in range(10):
            rows = some_rows(seed, 1 + 3 * seed)
            self.same(Frame(self.frame(rows)), rows)
            self.same(Frame(self.frame(rows, width=32)), rows)

    def test_chunks(self):
        rows = some_rows(7, 100)
        self.same(Frame(*(self.frame(rows[first : first + 30]) for first in range(0, 100, 30))), rows)

    def test_offsets(self):
        rows = some_rows(3, 20)
        frame = self.frame(rows)
        for column in frame.values():
            column.offset, column.count = 9, 11
        self.same(Frame(frame), rows[9:])

    def test_integers_of_all_widths(self):
        for code in "bhiq":
            self.same(Frame({"d": numbers([1, None, -7], code)}), [(1,), (None,), (-7,)], "d bigint")
            code = code.upper()
            self.same(Frame({"d": numbers([1, None, 200], code, UINT)}), [(1,), (None,), (200,)], "d bigint")

    def test_floats(self):
        plain = array.array("d", [1.0, float("nan"), -(2.0**52)])
        column = Column(3, (FLOAT, 64, "g", "="), plain.tobytes(), (1, None))
        self.same(Frame({"d": column}), [(1,), (None,), (-(2**52),)], "d bigint")
        for bad in (0.5, 2.0**53, float("inf")):
            column = Column(1, (FLOAT, 64, "g", "="), array.array("d", [bad]).tobytes(), (1, None))
            with self.assertRaises(agg.errors.BadField) as told:
                new(columns="d bigint", query="SELECT count(*) FROM batches").feed_rows(0, 1, Frame({"d": column}))
            self.assertEqual(told.exception.place, agg.Place(row=0, column=0))

    def test_floats_that_may_be_rounded(self):
        # Of fewer bits, fewer integers have a float of their own.
        for code, bits, rounded in (("e", 16, 2**11), ("f", 32, 2**24), ("d", 64, 2**53)):
            for sign in (1, -1):
                column = Column(1, (FLOAT, bits, code, "="), struct.pack(code, sign * (rounded - 1)), (1, None))
                self.same(Frame({"d": column}), [(sign * (rounded - 1),)], "d bigint")
                for bad in (rounded, rounded + 2 ** (bits // 8), float("inf")):
                    column = Column(1, (FLOAT, bits, code, "="), struct.pack(code, sign * bad), (1, None))
                    with self.subTest(bits=bits, value=bad), self.assertRaises(agg.errors.BadField):
                        new(columns="d bigint", query="SELECT count(*) FROM batches").feed_rows(0, 1, Frame({"d": column}))

    def test_categories_and_sentinels(self):
        codes = array.array("b", [1, 0, -1, 1]).tobytes()
        column = Column(4, (CATEGORICAL, 8, "c", "="), codes, (2, -1), categories=texts(["oslo", "bergen"]))
        # The codes' own type stands with their buffer.
        column.parts["data"] = column.parts["data"][0], (INT, 8, "c", "=")
        self.same(Frame({"c": column}), [("bergen",), ("oslo",), (None,), ("bergen",)], "c text")

    def test_booleans_of_bytes(self):
        column = Column(3, (BOOL, 8, "b", "="), b"\1\0\1")
        self.same(Frame({"p": column}), [(True,), (False,), (True,)], "p boolean")

    def test_no_rows(self):
        self.same(Frame({"c": texts([])}), [], "c text")

    def test_what_is_not_taken(self):
        summary = new(columns="d bigint", query="SELECT count(*) FROM batches")
        whole = numbers([1])
        for column in (
            Column(1, (DATETIME, 64, "tsn:", "="), bytes(8)),
            Column(1, (INT, 64, "l", ">"), bytes(8)),
            Column(1, (INT, 64, "l", "="), bytes(8), device=2),
        ):
            with self.assertRaises(TypeError):
                summary.feed_rows(0, 1, Frame({"d": column}))
        for columns in ({"e": whole}, {"d": whole, "e": whole}, {}):
            with self.assertRaises(agg.errors.WrongWidth):
                summary.feed_rows(0, 1, Frame(columns))
        with self.assertRaises(agg.errors.BadField):
            summary.feed_rows(0, 1, Frame({"d": texts(["5"])}))
        broken = texts(["å"])
        broken.parts["data"] = Buffer(b"\xc3\xc3"), broken.dtype
        with self.assertRaises(agg.errors.BadField):
            new(columns="c text", query="SELECT count(*) FROM batches").feed_rows(0, 1, Frame({"c": broken}))
        self.assertEqual(summary.known(), {})


@unittest.skipUnless(pandas, "pandas is not installed")
class Pandas(unittest.TestCase):
    def test_feeding(self):
        rows = [row for row in some_rows(1, 200) if row[1] is not None and row[2] is not None and row[0] is not None]
        frame = pandas.DataFrame(rows, columns=["city", "amount", "paid"])[["paid", "city", "amount"]]
        one, other = new(), new()
        one.feed_rows(0, 1, frame)
        other.feed_rows(0, 1, rows)
        self.assertEqual(bytes(one), bytes(other))

    def test_feeding_nulls(self):
        # pandas makes floats of integers with nulls.
        frame = pandas.DataFrame({"city": ["oslo", None, "bergen"], "amount": [1, None, 3], "paid": [True, False, True]})
        one, other = new(), new()
        one.feed_rows(0, 1, frame)
        other.feed_rows(0, 1, [("oslo", 1, True), (None, None, False), ("bergen", 3, True)])
        self.assertEqual(bytes(one), bytes(other))

    def test_by_the_protocol(self):
        # As another library's: of the types that pandas has there.
        class Other:
            def __init__(self, frame):
                self.__dataframe__ = frame.__dataframe__

        rows = [row for row in some_rows(1, 200) if row[1] is not None and row[2] is not None]
        frame = pandas.DataFrame(rows, columns=["city", "amount", "paid"])
        one, other = new(), new()
        one.feed_rows(0, 1, Other(frame))
        other.feed_rows(0, 1, rows)
        self.assertEqual(bytes(one), bytes(other))

    def test_feeding_what_was_answered(self):
        rows = [row for row in some_rows(2, 300) if row[1] is None or abs(row[1]) < 10]
        query = "SELECT city, sum(amount) AS amount, bool_and(paid) AS paid FROM batches GROUP BY city"
        one, other, again = new(query=query), new(), new()
        one.feed_rows(0, 1, rows)
        other.feed_rows(0, 1, one.to_pandas())
        again.feed_rows(0, 1, one.answer())
        self.assertEqual(bytes(other), bytes(again))

    def test_feeding_what_is_none_of_the_kinds(self):
        frame = pandas.DataFrame({"city": ["oslo"], "amount": [1], "paid": [True]})
        for column, bad in (("amount", pandas.Timestamp("2024-02-29")), ("amount", 0.5), ("amount", "1"), ("paid", 1), ("city", 1)):
            with self.assertRaises(agg.errors.BadField):
                new().feed_rows(0, 1, frame.assign(**{column: [bad]}))
        for other in (frame[["city", "paid"]], frame.assign(more=1), frame.rename(columns={"paid": 5})):
            with self.assertRaises(agg.errors.WrongWidth):
                new().feed_rows(0, 1, other)

    def test_feeding_floats_that_may_be_rounded(self):
        kinds = {"float16": 2**11, "float32": 2**24, "Float32": 2**24, "Sparse[float32]": 2**24, "float64": 2**53, "Float64": 2**53}
        for kind, rounded in kinds.items():
            one = new(columns="d bigint", query="SELECT d FROM batches GROUP BY d")
            one.feed_rows(0, 1, pandas.DataFrame({"d": pandas.Series([rounded - 1, 1 - rounded], dtype=kind)}))
            self.assertEqual([row.d for row in one.answer()], [1 - rounded, rounded - 1])
            for bad in (rounded, -rounded):
                with self.subTest(kind=kind, value=bad), self.assertRaises(agg.errors.BadField):
                    one.feed_rows(0, 2, pandas.DataFrame({"d": pandas.Series([1, bad], dtype=kind)}))

    def test_feeding_categories(self):
        one = new(columns="c text", query="SELECT c, count(*) FROM batches GROUP BY c")
        one.feed_rows(0, 1, pandas.DataFrame({"c": pandas.Categorical(["a", "b", None, "a"])}))
        self.assertEqual(one.answer(), [("a", 2), ("b", 1), (None, 1)])

    def test_feeding_rows_of_numpy(self):
        frame = pandas.DataFrame({"city": ["oslo"], "amount": [7], "paid": [True]})
        one, other = new(), new()
        one.feed_rows(0, 1, frame.itertuples(index=False))
        other.feed_rows(0, 1, [tuple(frame.iloc[0])])
        self.assertEqual(one, other)
        with self.assertRaises(agg.errors.BadField):
            new().feed_rows(0, 1, [("oslo", frame["paid"][0], True)])

    def test_answers(self):
        rows = some_rows(2, 300)
        one = new()
        one.feed_rows(0, 1, rows)
        frame = one.to_pandas()
        self.assertEqual(list(frame.columns), ["city", "count", "total", "min", "bool_and"])
        found = [tuple(None if value is pandas.NA else value for value in row) for row in frame.itertuples(index=False)]
        self.assertEqual(found, answered(rows))
        self.assertEqual([str(kind) for kind in frame.dtypes], ["string", "Int64", "object", "Int64", "boolean"])
        self.assertEqual([str(kind) for kind in new().to_pandas().dtypes], ["string", "Int64", "Int64", "Int64", "boolean"])

    def test_names_that_stand_twice(self):
        one = new(query="SELECT count(*), count(city) FROM batches")
        self.assertEqual(one.to_pandas().values.tolist(), [[0, 0]])
        self.assertEqual(list(one.to_pandas().columns), ["count", "count"])


@unittest.skipUnless(pyarrow, "PyArrow is not installed")
class Arrow(unittest.TestCase):
    def test_both_ways(self):
        rows = some_rows(2, 300)
        one, other = new(), new()
        names = ["city", "amount", "paid"]
        one.feed_rows(0, 1, pyarrow.table([list(column) for column in zip(*rows)], names=names))
        other.feed_rows(0, 1, rows)
        self.assertEqual(bytes(one), bytes(other))
        table = one.to_arrow()
        self.assertEqual(list(zip(*(column.to_pylist() for column in table.columns))), answered(rows))
        self.assertEqual([str(field.type) for field in table.schema], ["string", "int64", "decimal128(38, 0)", "int64", "bool"])
        self.assertEqual(new().to_arrow().schema, table.schema)


@unittest.skipUnless(polars, "Polars is not installed")
class Polars(unittest.TestCase):
    def test_feeding(self):
        rows = some_rows(2, 300)
        one, other = new(), new()
        one.feed_rows(0, 1, polars.DataFrame(rows, schema=["city", "amount", "paid"], orient="row"))
        other.feed_rows(0, 1, rows)
        self.assertEqual(bytes(one), bytes(other))


class Installed(unittest.TestCase):
    def test_without_them(self):
        one = new(query=QUERY)
        for library, call in ((pandas, one.to_pandas), (pyarrow, one.to_arrow)):
            if library is None:
                with self.assertRaises(ImportError):
                    call()


if __name__ == "__main__":
    unittest.main()
