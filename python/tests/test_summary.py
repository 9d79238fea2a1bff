"""Summaries: feeding, merging, saving, answering, and what they say of themselves."""

import copy
import pickle
import unittest

import agg
from tests.common import COLUMNS, QUERY, answered, batch, new, some_rows


class Feeding(unittest.TestCase):
    def test_what_becomes_of_a_batch(self):
        summary = new()
        self.assertEqual(summary.feed("batch,0,2,1\nbergen,7,t\n"), ("early", None))
        self.assertEqual(summary.known(), {0: (0, (2,))})
        self.assertEqual(summary.missing(), {0: [range(1, 2)]})
        self.assertEqual(str(summary.feed(b"batch,0,1,1\noslo,5,f\n")), "folded upto 2")
        self.assertEqual(str(summary.feed(bytearray(b"batch,0,1,1\noslo,5,f\n"))), "known")
        self.assertEqual(summary.feed(memoryview(b"batch,0,5,0\n")), ("early", None))
        self.assertEqual(summary.feed_rows(0, 9, []).reply, "early")
        self.assertEqual(summary.feed_rows(1, 1, []).upto, 1)
        self.assertEqual(summary.known(), {0: (2, (5, 9)), 1: (1, ())})
        self.assertEqual(summary.missing(), {0: [range(3, 5), range(6, 9)]})
        summary.feed_rows(0, 6, [])
        self.assertEqual(summary.missing(), {0: [range(3, 5), range(7, 9)]})
        summary.feed_rows(2, 1, []), summary.feed_rows(2, 4_294_967_295, [])
        self.assertEqual(summary.missing()[2], [range(2, 4_294_967_295)])

    def test_rows_and_the_batch_file_of_them_are_the_same(self):
        for seed in range(40):
            rows = some_rows(seed, seed)
            by_file, by_rows, by_dicts = new(), new(), new()
            by_file.feed(batch(3, 1, rows))
            by_rows.feed_rows(3, 1, rows)
            by_dicts.feed_rows(3, 1, (dict(zip(("paid", "city", "amount"), (row[2], row[0], row[1]))) for row in rows))
            self.assertEqual(bytes(by_file), bytes(by_rows))
            self.assertEqual(bytes(by_file), bytes(by_dicts))
            self.assertEqual([tuple(row) for row in by_rows.answer()], answered(rows))

    def test_rows_of_a_batch_that_waits(self):
        # An early batch is kept row by row in the summary's bytes.
        for seed in range(10):
            rows = some_rows(seed, 50)
            by_file, by_rows = new(), new()
            by_file.feed(batch(3, 2, rows))
            by_rows.feed_rows(3, 2, rows)
            self.assertEqual(bytes(by_file), bytes(by_rows))

    def test_refused_is_unchanged(self):
        summary = new()
        summary.feed_rows(0, 1, [("oslo", 5, True)])
        before = bytes(summary)
        for bad in ("batch,0,2,2\noslo,5,t\n", "batch,0,2,1\noslo,x,t\n", "", "batch,1024,1,0\n"):
            with self.assertRaises(agg.Refused):
                summary.feed(bad)
        self.assertEqual(bytes(summary), before)


class Merging(unittest.TestCase):
    def fed(self, *parts):
        summary = new()
        for origin, number in parts:
            summary.feed_rows(origin, number, some_rows(origin * 100 + number, 20))
        return summary

    def test_any_way_ends_with_the_same_bytes(self):
        north, south = self.fed((0, 1), (0, 3), (1, 1)), self.fed((1, 2), (0, 2), (1, 1))
        all_at_one = self.fed((1, 2), (1, 1), (0, 3), (0, 1), (0, 2))
        self.assertEqual(north | south, all_at_one)
        self.assertEqual(south | north | south, all_at_one)
        north |= south
        self.assertEqual(north, all_at_one)
        self.assertNotEqual(south, all_at_one)
        south.merge(bytes(north))
        self.assertEqual(bytes(south), bytes(all_at_one))
        self.assertEqual(south.answer(), all_at_one.answer())

    def test_with_itself(self):
        one = self.fed((0, 1), (2, 2))
        before = bytes(one)
        one.merge(one)
        one |= one
        self.assertEqual(bytes(one), before)
        self.assertEqual(one | one, one)

    def test_the_operator_makes_a_new_one(self):
        one, other = self.fed((0, 1)), self.fed((1, 1))
        before = bytes(one), bytes(other)
        both = one | other
        self.assertEqual(sorted(both.known()), [0, 1])
        self.assertEqual((bytes(one), bytes(other)), before)

    def test_others_than_summaries(self):
        one = self.fed((0, 1))
        with self.assertRaises(TypeError):
            one | b""
        with self.assertRaises(TypeError):
            one |= "text"
        self.assertNotEqual(one, bytes(one))
        with self.assertRaises(TypeError):
            hash(one)

    def test_no_bytes(self):
        one = self.fed((0, 1))
        for call in (one.feed, one.merge, agg.Summary.from_bytes):
            for bad in (5, None, [1, 2]):
                with self.assertRaises(TypeError):
                    call(bad)
        with self.assertRaises(TypeError):
            agg.Summary.from_bytes("text")

    def test_another_query_and_disagreement(self):
        one = self.fed((0, 1), (1, 5))
        with self.assertRaises(agg.errors.DifferentQuery):
            one.merge(new(query="SELECT count(*) FROM batches"))
        other = new()
        other.feed_rows(1, 5, [("other", 1, None)])
        with self.assertRaises(agg.errors.OriginDisagrees) as told:
            one.merge(other)
        self.assertEqual(told.exception.place, agg.Place(origin=1, number=5))
        with self.assertRaises(agg.errors.OriginDisagrees) as told:
            one.feed_rows(1, 5, [("other", 1, None)])
        self.assertEqual(told.exception.place, agg.Place(origin=1, number=5))


class AsValues(unittest.TestCase):
    def test_bytes_pickle_and_copies(self):
        one = new(limit=65_536)
        one.feed_rows(0, 1, some_rows(1, 100))
        for again in (agg.Summary.from_bytes(bytes(one)), pickle.loads(pickle.dumps(one)), copy.copy(one), copy.deepcopy(one), one.copy()):
            self.assertEqual(again, one)
            self.assertEqual(again.columns, COLUMNS)
            self.assertEqual(again.query, QUERY)
            again.feed_rows(0, 2, [])
            self.assertNotEqual(again, one)
        self.assertEqual(pickle.loads(pickle.dumps(one)).limit, 65_536)

    def test_representation(self):
        one = new()
        self.assertEqual(repr(one), f"<agg.Summary {QUERY}: 0 origins, 0 groups>")
        one.feed_rows(5, 1, [("oslo", 1, None)])
        self.assertEqual(repr(one), f"<agg.Summary {QUERY}: 1 origin, 1 group>")
        one.feed_rows(7, 1, [("bergen", 1, None)])
        self.assertEqual(repr(one), f"<agg.Summary {QUERY}: 2 origins, 2 groups>")
        one.close()
        self.assertEqual(repr(one), f"<agg.Summary {QUERY}: closed>")

    def test_closed(self):
        with new() as one:
            one.feed_rows(0, 1, [])
        one.close()
        for call in (one.answer, one.known, lambda: bytes(one), lambda: one.feed(b""), lambda: new().merge(one), lambda: one.merge(new())):
            with self.assertRaisesRegex(ValueError, "closed"):
                call()

    def test_canonical_texts(self):
        one = new(columns="City TEXT,amount INT8", query="select  city from batches group by CITY;")
        self.assertEqual((one.columns, one.query), ("city text, amount bigint", "SELECT city FROM batches GROUP BY city"))

    def test_version(self):
        self.assertEqual(agg.version(), agg.__version__)


class Answers(unittest.TestCase):
    def test_kinds_and_names(self):
        query = (
            "SELECT paid, city AS where_, count(*) FILTER (WHERE city = ' FROM x, (' AND amount <> 3) AS n, count(amount), sum(amount),"
            " max(amount) AS class, bit_or(amount), every(paid), bool_or(paid) AS any_, count(paid), city AS paid"
            " FROM batches GROUP BY paid, city ORDER BY 1, 2 DESC"
        )
        one = new(query=query)
        one.feed_rows(0, 1, [("t", 5, True), ("t", 2**63 - 1, True), ("f", None, None), (" FROM x, (", 2**63 - 1, False), (None, 3, True)])
        names = ("paid", "where_", "n", "count", "sum", "_5", "bit_or", "every", "any_", "_9", "_10")
        rows = one.answer()
        self.assertEqual(rows[0]._fields, names)
        self.assertEqual(
            [tuple(row) for row in rows],
            [
                (False, " FROM x, (", 1, 1, 2**63 - 1, 2**63 - 1, 2**63 - 1, False, False, 1, " FROM x, ("),
                (True, None, 0, 1, 3, 3, 3, True, True, 1, None),
                (True, "t", 0, 2, 2**63 + 4, 2**63 - 1, 2**63 - 1, True, True, 2, "t"),
                (None, "f", 0, 0, None, None, None, None, None, 0, "f"),
            ],
        )
        for row in rows:
            self.assertTrue(all(value is None or type(value) in (int, str, bool) for value in row))
            again = pickle.loads(pickle.dumps(row))
            self.assertEqual(again, row)
            self.assertIs(type(again), type(row))

    def test_kinds_are_those_of_the_items(self):
        query = (
            "SELECT city AS sum, sum(amount) AS city, count(*) AS every, every(paid) AS count, min(amount) AS n, count(city) AS n, paid"
            " FROM batches GROUP BY city, paid"
        )
        kinds = ["sum text", "city numeric", "every bigint", "count boolean", "n bigint", "n bigint", "paid boolean"]
        self.assertEqual(list(map(" ".join, new(query=query)._answer_columns)), kinds)
        one = new(query="SELECT sum(amount) FROM batches WHERE city <> 'FROM, (' AND (amount <> -5 OR paid)")
        self.assertEqual(list(map(" ".join, one._answer_columns)), ["sum numeric"])
        one.feed_rows(0, 1, [("oslo", 5, True)])
        self.assertEqual(repr(one.answer()), "[Row(sum=5)]")

    def test_no_groups(self):
        one = new(query="SELECT count(*), sum(amount) FROM batches")
        self.assertEqual(one.answer(), [(0, None)])
        self.assertEqual(new().answer(), [])
        self.assertEqual(new(query="SELECT city FROM batches GROUP BY city HAVING count(*) > 1").answer(), [])

    def test_empty_texts_alone(self):
        one = new(columns="c text", query="SELECT c FROM batches GROUP BY c")
        one.feed_rows(0, 1, [("",), (None,), ("",), ("\ufeff",)])
        self.assertEqual(one.answer(), [("",), ("\ufeff",), (None,)])

    def test_tables(self):
        one = new(query="SELECT city, count(*) FROM batches GROUP BY city")
        one.feed_rows(0, 1, [("oslo", None, None), ("a,b", None, None)])
        self.assertEqual(one.to_csv(), 'city,count\n"a,b",1\noslo,1\n')
        self.assertEqual(one.to_text().splitlines()[0].split("|")[0].strip(), "city")

    def test_long_texts(self):
        # Longer than what is left in the slot, so that it is thrown away behind the fetching.
        one = new(query="SELECT city, amount FROM batches GROUP BY city, amount")
        one.feed_rows(0, 1, [(f"{'x' * 200}{number}", number, None) for number in range(2_000)])
        for _ in range(2):
            self.assertEqual(len(one.answer()), 2_000)
            self.assertEqual(agg.Summary.from_bytes(bytes(one)), one)


if __name__ == "__main__":
    unittest.main()
