"""Each refusal: its class, its number, its place, and that it can be pickled."""

import pickle
import unittest

import agg
from agg import _library, errors
from tests.common import COLUMNS, new, some_rows


def raised(call):
    try:
        call()
    except agg.Refused as why:
        return why
    raise AssertionError("nothing was refused")


QUERIES = [
    ("c wert", "SELECT count(*) FROM batches", errors.BadSchema, {}),
    ("", "", errors.BadSchema, {}),
    ("c text", "select c frm batches", errors.Syntax, {"byte": 13}),
    ("c text", "SELECT c FROM batches WHERE 99999999999999999999 = 1", errors.NumberTooLarge, {}),
    ("c text", "SELECT d FROM batches GROUP BY d", errors.NoSuchColumn, {}),
    ("c text", "SELECT c FROM batches", errors.NotGrouped, {}),
    ("c text", "SELECT sum(c) FROM batches", errors.TypeMismatch, {}),
    ("c text", "SELECT count(*) FROM batches WHERE count(*) = 1", errors.AggregateHere, {}),
    ("c text", "SELECT count(*) FROM batches" + " " * 16_384, errors.TooMany, {}),
    ("c text", f"SELECT count(*) FROM batches WHERE {'(' * 65}c = 'a'{')' * 65}", errors.TooDeep, {}),
    ("c text, d text", "SELECT c, d AS c FROM batches GROUP BY c, d ORDER BY c", errors.AmbiguousOrder, {}),
    ("c text\ud800", "SELECT count(*) FROM batches", errors.BadCommand, {}),
]
BATCHES = [
    ("", errors.BadBatchHead, {}),
    ("batch,1024,1,0\n", errors.BadBatchHead, {}),
    ("batch,0,1,1048577\n", errors.TooManyRows, {}),
    ("batch,0,1,2\noslo,1,t\n", errors.RowCount, {}),
    ("batch,0,1,2\noslo,1,t\noslo,1\n", errors.WrongWidth, {"row": 1}),
    ("batch,0,1,2\noslo,1,t\noslo,1,yes\n", errors.BadField, {"row": 1, "column": 2}),
]


# Those that are no refusal, and those that no call of the library answers.
NO_CLASS = {"TooShort", "NotOpen", "AlreadyOpen", "NoSuchName", "NameTaken", "TapeFault", "TapeDamaged", "ReadFault", "WriteFault"}


class Refusals(unittest.TestCase):
    def held(self, why, kind, place):
        self.assertIs(type(why), kind)
        self.assertEqual(why.place, agg.Place(**place))
        self.assertTrue(why.sentence)
        self.assertEqual(str(why), f"{kind.__name__}: {why.sentence}")
        self.assertIsInstance(why, ValueError)
        again = pickle.loads(pickle.dumps(why))
        self.assertIs(type(again), kind)
        self.assertEqual((again.sentence, again.place, again.status, again.name), (why.sentence, why.place, why.status, why.name))

    def test_of_queries(self):
        for columns, query, kind, place in QUERIES:
            with self.subTest(query=query[:60]):
                why = raised(lambda: agg.Summary(columns=columns, query=query))
                self.held(why, kind, place)
                self.assertIsInstance(why, errors.RefusedQuery)

    def test_of_batches(self):
        for text, kind, place in BATCHES:
            with self.subTest(batch=text):
                why = raised(lambda: new().feed(text))
                self.held(why, kind, place)
                self.assertIsInstance(why, errors.RefusedBatch)

    def test_of_limits(self):
        for limit in (0, 65_535, 1_099_511_627_777, -1, 1 << 64, (1 << 64) + 65_536):
            with self.subTest(limit=limit):
                self.held(raised(lambda: new(limit=limit)), errors.LimitOutOfRange, {})
                self.held(raised(lambda: agg.Summary.from_bytes(bytes(new()), limit=limit)), errors.LimitOutOfRange, {})

    def test_of_heads_that_a_number_of_32_bits_would_cut(self):
        for origin, number in ((1 << 32, 1), (-1, 1), (0, (1 << 32) + 1), (0, 0), (1_024, 1), (0, -1)):
            with self.subTest(origin=origin, number=number):
                summary = new()
                self.held(raised(lambda: summary.feed_rows(origin, number, [])), errors.BadBatchHead, {})
                self.assertEqual(summary.known(), {})

    def test_of_files(self):
        file = self.some_file()
        self.held(raised(lambda: agg.Summary.from_bytes(b"no summary")), errors.NotASummary, {})
        self.held(raised(lambda: agg.Summary.from_bytes(file[:-1])), errors.Truncated, {})
        self.held(raised(lambda: agg.Summary.from_bytes(file + b"x")), errors.Trailing, {})
        self.held(raised(lambda: agg.Summary.from_bytes(file.replace(COLUMNS.encode(), COLUMNS.upper().encode()))), errors.NotCanonical, {})
        self.held(raised(lambda: new().merge(file[:-1])), errors.Truncated, {})

    def test_of_each_byte_that_is_damaged(self):
        # Whatever stands in a file, it is read as some summary or refused by name.
        file = self.some_file()
        seen = set()
        for place in range(len(file)):
            for bit in (1, 128):
                damaged = file[:place] + bytes([file[place] ^ bit]) + file[place + 1 :]
                try:
                    self.assertEqual(bytes(agg.Summary.from_bytes(damaged)), damaged)
                except agg.Refused as why:
                    seen.add(type(why))
        self.assertGreaterEqual(len(seen), 6, seen)

    def some_file(self):
        summary = new()
        summary.feed_rows(0, 1, some_rows(1, 5))
        summary.feed_rows(2, 3, some_rows(2, 3))
        return bytes(summary)

    def test_names_are_those_of_the_library(self):
        for status in range(1, 200):
            name, kind = _library.status_name(status), errors.BY_STATUS.get(status)
            if kind is not None:
                self.assertEqual(kind.__name__, name)
                self.assertTrue(kind.__doc__)
            elif name:
                self.assertIn(name, NO_CLASS)
        self.assertEqual(_library.status_name(5), "")

    def test_no_memory_and_what_is_unknown(self):
        self.assertIsInstance(_library.refusal(1, "none", agg.Place()), MemoryError)
        why = _library.refusal(199, "a sentence", agg.Place(row=3))
        self.assertEqual((type(why), why.name, why.status), (errors.UnknownRefusal, "Status199", 199))
        again = pickle.loads(pickle.dumps(why))
        self.assertEqual((str(again), again.place, again.status), ("Status199: a sentence", agg.Place(row=3), 199))
        self.assertEqual(repr(agg.Place(row=3, column=1)), "Place(row=3, column=1)")


if __name__ == "__main__":
    unittest.main()
