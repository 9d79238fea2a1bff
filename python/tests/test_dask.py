"""One summary of many batch files, by executors of concurrent.futures, and by Dask's distributed scheduler where it is installed."""

import concurrent.futures
import multiprocessing
import os
import signal
import tempfile
import threading
import time
import unittest
from pathlib import Path

import agg
import agg.dask
from tests.common import COLUMNS, QUERY, batch, new, some_rows

try:
    import distributed
except ImportError:
    distributed = None

ORIGINS, BATCHES = 8, 5
TEXTS = {"columns": COLUMNS, "query": QUERY}


class Folder(unittest.TestCase):
    @classmethod
    def setUpClass(cls):
        cls.folder = tempfile.TemporaryDirectory()
        cls.paths, wanted = [], new()
        for origin in range(ORIGINS):
            for number in range(1, BATCHES + 1):
                path = Path(cls.folder.name, f"{origin}-{number}.csv")
                path.write_bytes(batch(origin, number, some_rows(origin * 100 + number, 200)))
                cls.paths.append(path)
                wanted.feed(path.read_bytes())
        cls.wanted = bytes(wanted)

    @classmethod
    def tearDownClass(cls):
        cls.folder.cleanup()


class Executors(Folder):
    def test_any_cut_is_the_same(self):
        with concurrent.futures.ThreadPoolExecutor(4) as executor:
            for shares in (1, 2, 3, 7, 40, 1_000):
                self.assertEqual(bytes(agg.dask.summarize(executor, self.paths, shares=shares, **TEXTS)), self.wanted)
            twice = self.paths[::-1] + self.paths
            self.assertEqual(bytes(agg.dask.summarize(executor, twice, **TEXTS)), self.wanted)
            self.assertEqual(agg.dask.summarize(executor, [], **TEXTS), new())

    def test_processes(self):
        with concurrent.futures.ProcessPoolExecutor(2, mp_context=multiprocessing.get_context("spawn")) as executor:
            self.assertEqual(bytes(agg.dask.summarize(executor, map(str, self.paths), shares=5, **TEXTS)), self.wanted)

    def test_refused(self):
        bad = Path(self.folder.name, "bad.csv")
        bad.write_text("batch,0,1,1\noslo,x,t\n")
        spawn = multiprocessing.get_context("spawn")
        for executor in (concurrent.futures.ThreadPoolExecutor(2), concurrent.futures.ProcessPoolExecutor(2, spawn)):
            with executor:
                with self.assertRaises(agg.errors.BadField) as told:
                    agg.dask.summarize(executor, [*self.paths, bad], **TEXTS)
                self.assertEqual((told.exception.path, told.exception.place), (str(bad), agg.Place(row=0, column=1)))
                self.assertTrue(str(told.exception).startswith(f"{bad}: BadField: line 2"))
                with self.assertRaises(FileNotFoundError):
                    agg.dask.summarize(executor, [*self.paths, "no file"], **TEXTS)
                with self.assertRaises(agg.errors.Syntax):
                    agg.dask.summarize(executor, self.paths, columns=COLUMNS, query="SELECT")


def slow_share(notes, *arguments):
    """As feed_share; leaves a note of its run, and takes so long that a worker can be killed meanwhile."""
    Path(notes, os.urandom(8).hex()).touch()
    time.sleep(0.2)
    return agg.dask.feed_share(*arguments)


class Slowed:
    """A client whose shares are slow."""

    def __init__(self, client, notes):
        self.client, self.notes = client, notes

    def submit(self, function, *arguments, **more):
        if function is agg.dask.feed_share:
            return self.client.submit(slow_share, self.notes, *arguments, **more)
        return self.client.submit(function, *arguments, **more)


@unittest.skipUnless(distributed, "Dask's distributed is not installed")
class Dask(Folder):
    def run_by(self, paths, shares, kill):
        """The bytes, and how many shares were fed, by workers of which one is killed, if it is asked for, when some shares are done."""

        def strike():
            while len(os.listdir(notes)) < 5:
                time.sleep(0.01)
            os.kill(next(iter(cluster.workers.values())).pid, signal.SIGKILL)

        local = {"n_workers": 3, "threads_per_worker": 1, "processes": True, "host": "127.0.0.1", "dashboard_address": None}
        local["local_directory"] = self.folder.name
        with tempfile.TemporaryDirectory() as notes, distributed.LocalCluster(**local) as cluster, distributed.Client(cluster) as client:
            thread = threading.Thread(target=strike)
            if kill:
                thread.start()
            found = bytes(agg.dask.summarize(Slowed(client, notes), paths, shares=shares, **TEXTS))
            if kill:
                thread.join()
            return found, len(os.listdir(notes))

    def test_a_tree(self):
        found, runs = self.run_by(self.paths, 8, kill=False)
        self.assertEqual(found, self.wanted)
        self.assertEqual(runs, 8)

    def test_a_worker_is_killed_and_shares_come_twice(self):
        found, runs = self.run_by([*self.paths, *self.paths], 16, kill=True)
        self.assertEqual(found, self.wanted)
        # Some share ran again: the one that the worker had begun, or one that it held.
        self.assertGreater(runs, 16)

    def test_refused(self):
        with distributed.Client(processes=False, dashboard_address=None, local_directory=self.folder.name) as client:
            with self.assertRaises(agg.errors.BadBatchHead) as told:
                agg.dask.summarize(client, [*self.paths, __file__], **TEXTS)
            self.assertEqual(told.exception.path, __file__)


if __name__ == "__main__":
    unittest.main()
