#!/usr/bin/env python3
"""One answer by Dask's distributed scheduler and the package agg, and the bytes of one process.

    examples/dask/tree.py                 runs by 1, 2 and 4 workers, one with a worker killed, one with each share twice
    examples/dask/tree.py --rows 1000     smaller batches; 16,384 rows where none are said
    AGG_LIBRARY=FOLDER/libagg.so.1 examples/dask/tree.py    by the package in python/ over that library, else by the one installed
    PROGRAM=/usr/bin/agg_tool examples/dask/tree.py         the one process is agg_tool, else it is one of the package's

It makes batch files of 16 origins, 4 each, and has one process feed them all. Then a scheduler and workers are started as processes of
their own, which speak over the loopback address alone. Each share, the batches of an origin, is fed by a task, and the summaries are
merged two by two by tasks above (agg.dask.summarize). What is left at the end is compared, byte for byte, with the summary of the one.

Needs Python 3.9 and Dask's distributed: on Debian python3-distributed, which is for /usr/bin/python3. All files lie in a new folder,
which is removed. Standard output has a line for each run; on standard error Dask may say that it lost a worker, which it did, or that
closing took long. The status is 0 where all bytes are equal, and 1 else.
"""

import argparse
import contextlib
import os
import subprocess
import sys
import tempfile
import threading
import time
import uuid
from pathlib import Path

PACKAGE = Path(__file__).resolve().parent.parent.parent / "python"
if "AGG_LIBRARY" in os.environ:
    # For the workers, too.
    os.environ["PYTHONPATH"] = os.pathsep.join(filter(None, [str(PACKAGE), os.environ.get("PYTHONPATH")]))
    sys.path.insert(0, str(PACKAGE))
try:
    from dask.distributed import Client
except ImportError:
    sys.exit("tree.py: Dask's distributed is not installed for this Python: on Debian python3-distributed, run by /usr/bin/python3")
try:
    import agg.dask
except ImportError as why:
    sys.exit(f"tree.py: {why}: install the wheel (python/README.md), or name a library by AGG_LIBRARY")

ORIGINS = 16
BATCHES = 4
CITIES = 1_000
COLUMNS = "city text, amount bigint"
QUERY = "SELECT city, count(*), sum(amount), min(amount) FROM batches GROUP BY city"


def noted(work, function, *arguments):
    """A task that leaves a note of its run."""
    (work / "runs" / uuid.uuid4().hex).touch()
    return function(*arguments)


class Noting:
    """A client whose tasks leave notes, and which knows its tasks."""

    def __init__(self, client, work):
        self.client, self.work, self.shares, self.tasks = client, work, [], 0

    def submit(self, function, *arguments, **more):
        task = self.client.submit(noted, self.work, function, *arguments, **more)
        self.tasks += 1
        if function is agg.dask.feed_share:
            self.shares.append(task)
        return task


# The processes. Without a nanny a worker that was killed is not started again, so that others take its tasks.

SCHEDULER = "--host 127.0.0.1 --port 0 --no-dashboard"
WORKER = "--host 127.0.0.1 --nthreads 1 --no-nanny --no-dashboard"


def start(log, module, *words):
    """Starts a process of Dask."""
    with open(log, "w") as stream:
        return subprocess.Popen([sys.executable, "-m", module, *words], stdout=stream, stderr=stream, stdin=subprocess.DEVNULL)


@contextlib.contextmanager
def cluster(work, workers):
    """A client of a scheduler, and the processes of its workers. All end with it."""
    told = work / f"scheduler-{uuid.uuid4().hex}.json"
    processes = [start(f"{told}.log", "distributed.cli.dask_scheduler", *SCHEDULER.split(), "--scheduler-file", str(told))]
    try:
        for number in range(workers):
            words = ["--scheduler-file", str(told), "--name", str(number), "--local-directory", str(work)]
            processes.append(start(f"{told}.{number}.log", "distributed.cli.dask_worker", *WORKER.split(), *words))
        with Client(scheduler_file=str(told), timeout=60) as client:
            client.wait_for_workers(workers, timeout=60)
            client.run(os.getpid)
            yield client, processes[1:]
    finally:
        # They keep nothing, and a worker that is asked to end waits for its scheduler.
        for process in processes:
            process.kill()
            process.wait()


def kill_one(client, processes, shares):
    """Kills the first worker that is seen to hold the summary of a share, which is lost with it."""
    while True:
        held = client.who_has(list(shares))
        names = {worker["id"]: address for address, worker in client.scheduler_info()["workers"].items()}
        for number, process in enumerate(processes):
            address = names.get(number, names.get(str(number)))
            if any(address in places for places in held.values()):
                process.kill()
                return
        time.sleep(0.01)


def timed(work, shares, workers, again=1, kill=False):
    """Has workers make the summary of all shares, each given so often. Answers it, the seconds, the number of tasks and that of runs."""
    for note in (work / "runs").iterdir():
        note.unlink()
    paths = [path for _ in range(again) for share in shares for path in share]
    with cluster(work, workers) as (client, processes):
        noting = Noting(client, work)
        killer = threading.Thread(target=kill_one, args=(client, processes, noting.shares))
        since = time.monotonic()
        if kill:
            killer.start()
        summary = bytes(agg.dask.summarize(noting, paths, columns=COLUMNS, query=QUERY, shares=ORIGINS * again))
        seconds = time.monotonic() - since
        if kill:
            killer.join()
        return summary, seconds, noting.tasks, len(list((work / "runs").iterdir()))


# The example.


def make_batches(work, rows):
    """The batch files of each origin, always the same."""
    seed = 20240229
    shares = []
    for origin in range(ORIGINS):
        share = []
        for number in range(1, BATCHES + 1):
            path = work / f"{origin}-{number}.csv"
            with open(path, "w") as stream:
                stream.write(f"batch,{origin},{number},{rows}\n")
                for _ in range(rows):
                    seed = seed * 16807 % 2147483647
                    stream.write(f"city{seed % CITIES:03d},{seed % 2001 - 1000}\n")
            share.append(path)
        shares.append(share)
    return shares


def of_one_process(work, paths):
    """The summary that one process makes of all, and its name."""
    program = os.environ.get("PROGRAM")
    if not program:
        return agg.dask.feed_share(COLUMNS, QUERY, agg.USUAL_LIMIT, paths), "the package"
    for words in (["new", "empty.sum", "--columns", COLUMNS, "--query", QUERY], ["feed", "one.sum", "empty.sum", *paths]):
        ended = subprocess.run([program, *words], cwd=work, stdout=subprocess.PIPE, stderr=subprocess.PIPE, text=True)
        if ended.returncode != 0:
            raise RuntimeError(f"{program} {words[0]}: status {ended.returncode}: {ended.stderr}")
    return (work / "one.sum").read_bytes(), "agg_tool"


def compare(work, rows):
    """Whether all ways give the same bytes."""
    shares = make_batches(work, rows)
    since = time.monotonic()
    wanted, name = of_one_process(work, [str(path) for share in shares for path in share])
    print(f"one process, {name}: {time.monotonic() - since:.2f} s for {ORIGINS * BATCHES * rows} rows")
    ways = [
        ("1 worker", {"workers": 1}),
        ("2 workers", {"workers": 2}),
        ("4 workers", {"workers": 4}),
        ("4 workers, one killed", {"workers": 4, "kill": True}),
        ("4 workers, each share twice", {"workers": 4, "again": 2}),
    ]
    all_equal = True
    for name, way in ways:
        summary, seconds, tasks, runs = timed(work, shares, **way)
        equal = summary == wanted
        all_equal = all_equal and equal
        print(f"{name}: {seconds:.2f} s, {tasks} tasks, {runs} runs, {'the same bytes' if equal else 'OTHER BYTES'}", flush=True)
    return all_equal


def main():
    words = argparse.ArgumentParser(description="One answer by Dask's distributed scheduler.")
    words.add_argument("--rows", type=int, default=16_384, help="rows a batch [default: 16384]")
    told = words.parse_args()
    with tempfile.TemporaryDirectory() as folder:
        work = Path(folder)
        (work / "runs").mkdir()
        return 0 if compare(work, told.rows) else 1


if __name__ == "__main__":
    sys.exit(main())
