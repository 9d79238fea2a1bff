"""Rows of Python: what is taken, and what no field stands for."""

import collections
import enum
import unittest

import agg
from tests.common import new


class Number(enum.IntEnum):
    SEVEN = 7


class City(str, enum.Enum):
    OSLO = "oslo"


class Indexed:
    def __index__(self):
        return 7


Record = collections.namedtuple("Record", "city amount paid")


class Rows(unittest.TestCase):
    def same(self, rows, wanted):
        one, other = new(), new()
        one.feed_rows(0, 2, rows)
        other.feed_rows(0, 2, wanted)
        self.assertEqual(bytes(one), bytes(other))

    def refused(self, kind, place, *rows):
        summary = new()
        with self.assertRaises(kind) as told:
            summary.feed_rows(0, 1, list(rows))
        self.assertEqual(told.exception.place, agg.Place(**place))
        self.assertEqual(summary.known(), {})
        return told.exception.sentence

    def test_shapes(self):
        wanted = [("oslo", 7, True), ("bergen", None, False)]
        self.same([list(row) for row in wanted], wanted)
        self.same(tuple(wanted), wanted)
        self.same((row for row in wanted), wanted)
        self.same([Record(*row) for row in wanted], wanted)
        self.same([collections.deque(row) for row in wanted], wanted)
        self.same([dict(zip(Record._fields, row)) for row in wanted], wanted)
        self.same([collections.OrderedDict(paid=row[2], city=row[0], amount=row[1]) for row in wanted], wanted)
        self.same([wanted[0], dict(zip(Record._fields, wanted[1]))], wanted)
        self.same(zip(["oslo", "bergen"], [7, None], [True, False]), wanted)

    def test_values(self):
        wanted = [("oslo", 7, True)]
        self.same([(City.OSLO, Number.SEVEN, True)], wanted)
        self.same([("oslo", Indexed(), True)], wanted)

    def test_values_of_other_types(self):
        good = ("oslo", 5, True)
        for column, bad in ((0, 5), (0, b"oslo"), (0, True), (1, "5"), (1, 5.0), (1, float("nan")), (1, True), (2, 1), (2, "t"), (2, 0)):
            row = [*good]
            row[column] = bad
            with self.subTest(column=column, value=bad):
                sentence = self.refused(agg.errors.BadField, {"row": 1, "column": column}, good, row)
                self.assertIn(repr(bad), sentence)

    def test_values_that_no_field_stands_for(self):
        self.refused(agg.errors.BadField, {"row": 1, "column": 0}, ("a", 1, None), ("\\N", 1, None))
        self.refused(agg.errors.BadField, {"row": 1, "column": 0}, ("a", 1, None), ("\ud800", 1, None))
        self.assertIn("city text: 'a\\x00b'", self.refused(agg.errors.BadField, {"row": 0, "column": 0}, ("a\0b", 1, None)))
        self.refused(agg.errors.BadField, {"row": 0, "column": 0}, ("x" * 256, 1, None))
        self.refused(agg.errors.BadField, {"row": 0, "column": 0}, ("å" * 128, 1, None))
        for number in (2**63, -(2**63) - 1, 2**64, 2**100, -(2**100), 10**5_000):
            sentence = self.refused(agg.errors.BadField, {"row": 1, "column": 1}, ("a", 1, None), ("a", number, None))
            self.assertIn("amount bigint: ", sentence)

    def test_widths(self):
        self.refused(agg.errors.WrongWidth, {"row": 1}, ("a", 1, None), ("a", 1))
        self.refused(agg.errors.WrongWidth, {"row": 0}, ("a", 1, None, None))
        self.refused(agg.errors.WrongWidth, {"row": 0}, {"city": "a", "amount": 1})
        self.refused(agg.errors.WrongWidth, {"row": 0}, {"city": "a", "amount": 1, "payed": True})
        self.refused(agg.errors.WrongWidth, {"row": 0}, {"city": "a", "amount": 1, "paid": True, "more": 1})
        self.refused(agg.errors.WrongWidth, {"row": 1}, ("a", 1, None), {"city": "a"})

    def test_no_rows(self):
        for row in ("abc", b"abc", 5, None):
            with self.assertRaises(TypeError):
                new().feed_rows(0, 1, [row])
        with self.assertRaises(TypeError):
            new().feed_rows(0, 1, 5)
        with self.assertRaises(TypeError):
            new().feed_rows(0.5, 1, [])

    def test_too_many_rows(self):
        rows = [("a", 1, None)] * 1_048_577
        with self.assertRaises(agg.errors.TooManyRows):
            new().feed_rows(0, 1, rows)
        self.assertEqual(new().feed_rows(0, 1, rows[1:]).upto, 1)


if __name__ == "__main__":
    unittest.main()
