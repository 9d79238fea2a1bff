"""Threads and processes: one summary for many threads, calls that don't hold the interpreter, and memory that goes back."""

import concurrent.futures
import gc
import multiprocessing
import threading
import time
import unittest

import agg
from tests.common import batch, new, run, some_rows

PARTS = [(origin, number) for number in range(6, 0, -1) for origin in range(6)]


def fed_by_a_process(part):
    """What another process makes."""
    summary = new()
    summary.feed_rows(*part, some_rows(hash(part), 30))
    return summary


def resident():
    """The pages of memory that this process has, or none where the system doesn't say."""
    try:
        with open("/proc/self/statm") as stream:
            return int(stream.read().split()[1])
    except OSError:
        return 0


class Threads(unittest.TestCase):
    def setUp(self):
        self.wanted = new()
        for part in PARTS:
            self.wanted.feed_rows(*part, some_rows(hash(part), 30))

    def test_one_summary_for_all(self):
        summary, errors, seen = new(), [], []

        def work(parts):
            try:
                for part in parts:
                    summary.feed(batch(*part, some_rows(hash(part), 30)))
                    seen.append(len(summary.answer()) + len(bytes(summary)) + len(summary.known()) + len(repr(summary)))
                    try:
                        summary.feed("batch,0,1,1\n")
                    except agg.errors.RowCount as why:
                        seen.append("1" in why.sentence)
            except BaseException as why:
                errors.append(why)

        threads = [threading.Thread(target=work, args=(PARTS[first:] + PARTS[:first],)) for first in range(0, 36, 5)]
        for thread in threads:
            thread.start()
        for thread in threads:
            thread.join()
        self.assertEqual(errors, [])
        self.assertEqual(len(seen), 2 * 8 * len(PARTS))
        self.assertTrue(all(seen))
        self.assertEqual(bytes(summary), bytes(self.wanted))

    def test_merging_one_another(self):
        # Each is merged into the next, and the next into it, at the same time: no two calls wait for each other for ever.
        ring = [new() for _ in range(6)]
        for place, part in enumerate(PARTS):
            ring[place % 6].feed_rows(*part, some_rows(hash(part), 30))

        def work(place):
            for _ in range(20):
                ring[place].merge(ring[(place + 1) % 6])
                ring[(place + 1) % 6].merge(ring[place])

        with concurrent.futures.ThreadPoolExecutor(6) as executor:
            for done in [executor.submit(work, place) for place in range(6)]:
                done.result(timeout=120)
        for place in range(12):
            ring[place % 6].merge(ring[place % 6 - 1])
        for summary in ring:
            self.assertEqual(bytes(summary), bytes(self.wanted))

    def test_merging_uses_both(self):
        # While one is merged into another, neither is for others: not the one that was made first, and not the other.
        one, other = self.large(), self.large()
        for into, source in ((one, other), (other, one)):
            ended, thread = [], threading.Thread(target=lambda: [into.merge(source) for _ in range(10)])
            thread.start()
            while thread.is_alive() or not ended:
                ended.append((len(into.known()), len(source.known())))
            thread.join()
            self.assertEqual(set(ended), {(1, 1)})

    def test_merging_each_into_the_other(self):
        one, other = self.large(), self.large()
        pairs = ((one, other), (other, one)) * 2
        threads = [threading.Thread(target=lambda into=into, source=source: [into.merge(source) for _ in range(20)], daemon=True)
                   for into, source in pairs]  # fmt: skip
        for thread in threads:
            thread.start()
        for thread in threads:
            thread.join(timeout=120)
            self.assertFalse(thread.is_alive(), "they wait for each other")

    def large(self):
        summary = new()
        summary.feed_rows(0, 1, [("city" + str(number), number, None) for number in range(10_000)])
        return summary

    def test_a_small_stack(self):
        # By what takes most: the longest queries, and a refusal of a row of 32 columns.
        found = run(
            """
            import threading
            import agg

            def work():
                columns = "p boolean, " + ", ".join(f"c{number} text" for number in range(31))
                items = ", ".join(f"count(c{number})" for number in range(31))
                conditions = ["NOT " * depth + "p" for depth in (63, 3_900)] + ["(" * depth + "p" + ")" * depth for depth in (64, 7_900)]
                for condition in conditions:
                    try:
                        summary = agg.Summary(columns=columns, query=f"SELECT {items} FROM batches WHERE {condition}")
                    except agg.Refused as why:
                        print(why.name)
                        continue
                    for row in ([True] + ["a"] * 31, [True] + ["a"] * 30 + ["x" * 256]):
                        try:
                            summary.feed_rows(0, 1, [row])
                        except agg.errors.BadField as why:
                            print(why.place.column)
                    agg.Summary.from_bytes(bytes(summary | summary)).answer()

            threading.stack_size(3 * 1024 * 1024)
            thread = threading.Thread(target=work)
            thread.start()
            thread.join()
            """
        )
        self.assertEqual(set(found.split()), {"TooDeep", "31"})

    def test_others_run_while_a_call_works(self):
        data = batch(0, 1, [("city" + str(number), number, None) for number in range(300_000)])
        summary, worked, seen = new(), [], []

        def work():
            worked.append(time.monotonic())
            summary.feed(data)
            worked.append(time.monotonic())

        thread = threading.Thread(target=work)
        thread.start()
        while thread.is_alive():
            seen.append(time.monotonic())
            time.sleep(0.001)
        thread.join()
        begun, ended = worked
        # Where the call held the interpreter, there would be one or two.
        self.assertGreater(sum(begun < moment < ended for moment in seen), 10)

    def test_processes(self):
        with concurrent.futures.ProcessPoolExecutor(2, mp_context=multiprocessing.get_context("spawn")) as executor:
            summary = new()
            for found in executor.map(fed_by_a_process, PARTS[:4]):
                summary |= found
        other = new()
        for part in PARTS[:4]:
            other.feed_rows(*part, some_rows(hash(part), 30))
        self.assertEqual(summary, other)


class Memory(unittest.TestCase):
    def test_it_goes_back(self):
        rows = [("city" + str(number), number, None) for number in range(2_000)]

        def use():
            summary = new()
            summary.feed_rows(0, 1, rows)
            again = agg.Summary.from_bytes(bytes(summary))
            again |= summary
            for call in (lambda: new(query="SELECT"), lambda: agg.Summary.from_bytes(b"AGGSUM02"), lambda: summary.feed("")):
                with self.assertRaises(agg.Refused):
                    call()
            return len(bytes(again | summary))

        for _ in range(20):
            length = use()
        gc.collect()
        before = resident()
        for _ in range(100):
            use()
        gc.collect()
        # Where one summary in ten were lost, there would be ten of them.
        self.assertLess((resident() - before) * 4_096, 10 * length)

    def test_a_long_text_is_not_kept(self):
        summary = new()
        # A batch that waits, so that its rows are in the bytes.
        summary.feed_rows(0, 2, [("x" * 250, number, None) for number in range(30_000)])
        length = len(bytes(summary))
        gc.collect()
        before = resident()
        for _ in range(5):
            self.assertEqual(len(bytes(summary)), length)
        other = new()
        other.feed_rows(0, 2, [("x" * 250, number, None) for number in range(30_000)])
        feeding = resident() - before
        bytes(other)
        gc.collect()
        self.assertLess((resident() - before - feeding) * 4_096, length // 2)


if __name__ == "__main__":
    unittest.main()
