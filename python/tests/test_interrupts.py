"""What comes into a call: the handlers of signals, Ctrl-C, what the collector runs, and forks. Each is tried in a process of its own, so
that one that hangs fails."""

import os
import signal
import sys
import unittest

from tests.common import run

# 300,000 rows take a call some tenths of a second.
LARGE = """
    import gc, os, random, signal, sys, threading, time
    import agg
    from tests.common import batch, new, some_rows

    data = batch(0, 1, [("city" + str(number % 50_000), number, None) for number in range(300_000)])

    def same(found, wanted):
        if found != wanted:
            raise SystemExit(f"{found!r}"[:400] + f" is not {wanted!r}"[:400])

    def handle(handler, first, again=0):
        handling = []

        # A signal may also come into its own handler.
        def once(*told):
            if not handling:
                handling.append(True)
                try:
                    handler(*told)
                finally:
                    handling.clear()

        signal.signal(signal.SIGALRM, once)
        signal.setitimer(signal.ITIMER_REAL, first, again)

    def rest():
        signal.setitimer(signal.ITIMER_REAL, 0)
"""
HAS_TIMER = unittest.skipUnless(hasattr(signal, "setitimer"), "this system has no timer")


@HAS_TIMER
class Signals(unittest.TestCase):
    def test_a_handler_that_changes_what_its_thread_is_changing(self):
        changes = ["close()", "feed(data)", "feed_rows(0, 2, [])", "merge(whole)", "merge(other)"]
        found = run(
            LARGE,
            f"""
            other = new()
            whole = bytes(other)
            for change in {changes!r}:
                summary = new()
                handle(lambda *_: eval("summary." + change), 0.02)
                try:
                    summary.feed(data)
                except agg.errors.InUse as why:
                    print(change, "handler" in str(why))
                # The call that was under way has ended, and its batch counts.
                same(str(summary.feed(data)), "known")
                same(summary.known(), {{0: (1, ())}})
                summary.close()
            """,
        )
        self.assertEqual(found.splitlines(), [f"{change} True" for change in changes])

    def test_a_handler_that_saves(self):
        run(
            LARGE,
            """
            whole = new()
            whole.feed(data)
            wanted = bytes(whole), repr(whole), whole.known(), len(whole.answer())
            seen = []

            def handler(*_):
                seen.append((bytes(summary), repr(summary), summary.known(), len(summary.answer())))

            for change in (lambda: summary.feed(data), lambda: summary.merge(whole), lambda: summary.merge(wanted[0])):
                summary = new()
                repr(summary)
                handle(handler, 0.01)
                change()
                while len(seen) < 1:
                    time.sleep(0.001)
                before = b"", f"<agg.Summary {summary.query}: 0 origins, 0 groups>", {}, 0
                same(seen.pop() in (wanted, (bytes(new()), *before[1:])), True)
                same((bytes(summary), repr(summary), summary.known(), len(summary.answer())), wanted)
            """,
        )

    def test_handlers_that_ask_at_any_time(self):
        # What a call tells, or is refused for, is its own, whatever a handler has asked meanwhile.
        run(
            LARGE,
            """
            summary = new()
            summary.feed_rows(0, 1, some_rows(1, 500))
            asks = [lambda: bytes(summary), summary.known, summary.answer, summary.to_text, summary.to_csv, lambda: repr(summary)]
            wanted = [ask() for ask in asks]
            handled = []

            def handler(*_):
                place = random.randrange(len(asks))
                same(asks[place](), wanted[place])
                handled.append(place)

            handle(handler, 0.0005, 0.0005)
            since = time.monotonic()
            while time.monotonic() < since + 4:
                for place, ask in enumerate(asks):
                    same(ask(), wanted[place])
                try:
                    summary.feed_rows(0, 2, [("oslo", 5, True), ("x" * 256, 5, True)])
                except agg.errors.BadField as why:
                    same((why.place, "the limit is 255" in why.sentence, "row 1" in why.sentence), (agg.Place(row=1, column=0), True, True))
            rest()
            same(len(handled) > 200, True)
            """,
        )

    def test_a_handler_that_asks_more_often_than_a_call_ends(self):
        run(
            LARGE,
            """
            summary, handled = new(), []
            summary.feed(data)
            wanted = summary.to_text(), bytes(summary)
            handle(lambda *_: handled.append(summary.known()), 0.001, 0.001)
            same((summary.to_text(), bytes(summary)), wanted)
            rest()
            same(handled[0], {0: (1, ())})
            """,
        )

    def test_a_handler_that_saves_another(self):
        # One thread merges two, of which the main thread feeds one, and its handler saves the other.
        run(
            LARGE,
            """
            one, other, done, saved = new(), new(), [], []
            small = batch(1, 1, some_rows(1, 20_000))

            def work():
                while not done:
                    one.merge(other)

            thread = threading.Thread(target=work)
            thread.start()
            handle(lambda *_: saved.append(len(bytes(one))), 0.002, 0.002)
            since = time.monotonic()
            while time.monotonic() < since + 4:
                other.feed(small)
            rest()
            done.append(True)
            thread.join()
            same(len(saved) > 20, True)
            """,
        )

    def test_the_collector(self):
        found = run(
            LARGE,
            """
            summary, seen, refused = new(), [], []
            sys.unraisablehook = lambda told: refused.append(told.exc_type.__name__)

            class Cycle:
                def __init__(self, use):
                    self.me, self.use = self, use

                def __del__(self):
                    seen.append(1)
                    self.use()

            for number in range(3_000):
                # So that it comes at each place.
                gc.set_threshold(1 + number % 40)
                Cycle(lambda: same(summary.known(), {}))
                same(summary.known(), {})
                Cycle(lambda: summary.merge(new()))
                same(summary.known(), {})
            gc.set_threshold(700)
            same(len(seen) > 5_000, True)
            print(*sorted(set(refused)))
            """,
        )
        self.assertEqual(found.split(), ["InUse"])


@HAS_TIMER
class Interrupts(unittest.TestCase):
    def test_what_is_shown_behind_an_interrupted_call(self):
        run(
            LARGE,
            """
            whole, other, interrupted = new(), new(), []
            whole.feed(data)
            saved = bytes(whole)
            other.feed(data.replace(b"batch,0,1,", b"batch,1,1,").replace(b"city", b"town"))
            for change in (lambda: summary.feed(data), lambda: summary.merge(whole), lambda: summary.merge(saved)):
                for attempt in range(6):
                    summary = other.copy()
                    repr(summary)
                    since = time.monotonic()
                    try:
                        if attempt:
                            handle(signal.default_int_handler, spent / 3)
                        change()
                        rest()
                    except KeyboardInterrupt:
                        interrupted.append(change)
                    spent = spent if attempt else time.monotonic() - since
                    same(repr(summary), repr(summary.copy()))
            same(len(set(interrupted)), 3)
            """,
        )

    def test_what_is_counted_inside_a_call(self):
        found = run(
            LARGE,
            """
            from agg import _library

            def feed(*words):
                # As a handler does just before the library is called.
                print(repr(summary))
                return _library.LIBRARY.agg_feed(*words)

            summary, data = new(), batch(0, 1, [("oslo", 5, True)])
            print(repr(summary))
            summary._handle.deliver(feed, data, len(data))
            print(repr(summary))
            """,
        )
        told = [line.rpartition(": ")[2] for line in found.splitlines()]
        self.assertEqual(told, ["0 origins, 0 groups>", "0 origins, 0 groups>", "1 origin, 1 group>"])

    def test_locks_are_free_behind_an_interrupted_call(self):
        # Wherever it came: another thread can use both.
        if sys.version_info < (3, 10):
            self.skipTest("Python 3.9 looks at signals even between the end of a `with` and its release, so that any lock may stay taken")
        run(
            LARGE,
            """
            interrupted, armed = 0, False

            def handler(*_):
                if armed:
                    raise KeyboardInterrupt

            def use():
                seen.append((one.known(), other.known()))

            one, other, chosen = new(), new(), random.Random(1)
            small = batch(0, 1, some_rows(1, 20))
            for attempt in range(4_000):
                seen = []
                try:
                    armed = True
                    handle(handler, chosen.uniform(0.000_002, 0.000_2))
                    for _ in range(5):
                        one.merge(other)
                        other.merge(one)
                        one.feed(small)
                        repr(one)
                    armed = False
                except KeyboardInterrupt:
                    armed = False
                    interrupted += 1
                rest()
                thread = threading.Thread(target=use, daemon=True)
                thread.start()
                thread.join(timeout=30)
                same(len(seen), 1)
            same(interrupted > 1_000, True)
            """,
        )


@unittest.skipUnless(hasattr(os, "fork"), "this system has no fork")
class Forks(unittest.TestCase):
    def test_a_child_and_what_another_thread_was_using(self):
        found = run(
            LARGE,
            """
            summary, idle, done, told = new(), new(), [], set()
            idle.feed_rows(0, 1, some_rows(1, 50))
            wanted = bytes(idle)

            def work():
                while not done:
                    summary.feed(data)

            def use():
                # None that is idle is lost.
                same(bytes(idle | agg.Summary.from_bytes(wanted)), wanted)
                merges = lambda: idle.merge(summary), lambda: summary.merge(idle), lambda: summary | idle
                for call in (summary.known, summary.close, *merges):
                    try:
                        call()
                    except agg.errors.Forked as why:
                        same("pickled" in str(why) and "forked off" in repr(summary), True)
                    else:
                        return 0
                idle.feed_rows(0, 2, [])
                return 7

            thread = threading.Thread(target=work)
            thread.start()
            for _ in range(40):
                child = os.fork()
                if child == 0:
                    signal.alarm(30)
                    done.append(True)
                    # By the end of a program, which lets go of what it holds.
                    sys.exit(use())
                told.add(os.waitpid(child, 0)[1])
            done.append(True)
            thread.join()
            same(summary.known()[0].upto, 1)
            print(*(status >> 8 if status & 255 == 0 else f"signal {status}" for status in sorted(told)))
            """,
        )
        self.assertIn(found.split(), (["7"], ["0", "7"]))

    def test_a_pool_whose_workers_inherit_a_summary(self):
        found = run(
            LARGE,
            """
            import multiprocessing

            summary, idle, done = new(), new(), []
            idle.feed_rows(3, 1, [])

            def work():
                while not done:
                    summary.feed(data)

            def told(which):
                return sorted((idle if which else summary).known())

            def given(summary):
                return sorted(summary.known())

            thread = threading.Thread(target=work)
            thread.start()
            time.sleep(0.2)
            for attempt in range(20):
                with multiprocessing.get_context("fork").Pool(2) as pool:
                    same(pool.map_async(told, [True] * 4).get(60), [[3]] * 4)
                    same(pool.map_async(given, [idle] * 4).get(60), [[3]] * 4)
                    try:
                        pool.apply_async(told, [False]).get(60)
                    except agg.errors.Forked as why:
                        print("pickled" in str(why))
                        break
            done.append(True)
            thread.join()
            """,
        )
        self.assertEqual(found.split(), ["True"])


if __name__ == "__main__":
    unittest.main()
