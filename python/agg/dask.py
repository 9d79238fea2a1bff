"""One summary of many batch files, by the workers of Dask's distributed scheduler, or of an executor of concurrent.futures.

A task that runs twice, or is lost and runs again, changes nothing, since a batch counts once. Any order of merges ends with the same bytes.
"""

from __future__ import annotations

import os
from concurrent.futures import FIRST_COMPLETED, Executor, Future, wait
from pathlib import Path
from typing import Any, Iterable, List, Optional, Sequence, Set, Union

from ._summary import USUAL_LIMIT, Summary
from .errors import Refused

__all__ = ["summarize", "feed_share", "merge_two"]

_SHARES = 32


def feed_share(columns: str, query: str, limit: int, paths: Sequence[str]) -> bytes:
    """The bytes of the summary of some batch files. What a worker runs."""
    with Summary(columns=columns, query=query, limit=limit) as summary:
        for path in paths:
            try:
                summary.feed(Path(path).read_bytes())
            except Refused as why:
                why.path = path
                raise
        return bytes(summary)


def merge_two(one: bytes, other: bytes, limit: int) -> bytes:
    """The bytes of the summary that knows what either knows. What a worker runs."""
    with Summary.from_bytes(one, limit=limit) as summary:
        summary.merge(other)
        return bytes(summary)


def _by_client(client: Any, shares: List[List[str]], columns: str, query: str, limit: int) -> bytes:
    """A tree of tasks. A summary goes from worker to worker, and only the last one comes here."""
    # Not pure: a task has a key of its own, since what a file holds may be another tomorrow.
    found = [client.submit(feed_share, columns, query, limit, share, pure=False) for share in shares]
    while len(found) > 1:
        pairs = zip(found[::2], found[1::2])
        merged = [client.submit(merge_two, one, other, limit, pure=False) for one, other in pairs]
        found = merged + found[len(merged) * 2 :]
    result: bytes = found[0].result()
    return result


def _by_executor(executor: Executor, shares: List[List[str]], columns: str, query: str, limit: int) -> bytes:
    """Merges what is ready, two by two."""
    working: Set[Future[bytes]] = {executor.submit(feed_share, columns, query, limit, share) for share in shares}
    ready: Optional[bytes] = None
    try:
        while working:
            done, working = wait(working, return_when=FIRST_COMPLETED)
            for future in done:
                if ready is None:
                    ready = future.result()
                else:
                    working.add(executor.submit(merge_two, ready, future.result(), limit))
                    ready = None
    finally:
        for future in working:
            future.cancel()
    if ready is None:
        raise ValueError("there are no shares")
    return ready


def summarize(
    client: Any,
    paths: Iterable[Union[str, "os.PathLike[str]"]],
    *,
    columns: str,
    query: str,
    limit: int = USUAL_LIMIT,
    shares: int = _SHARES,
) -> Summary:
    """The summary of all these batch files, which is the one that a single process would make, byte for byte.

    `client` is a Client of Dask's distributed, or an executor. The paths are cut into at most so many shares, which tasks feed; tasks merge
    them two by two. Each worker needs this package, and finds each file by its path. A path may stand twice, and a worker may be lost,
    which Dask answers by running its tasks again on others. A batch that is refused ends the whole, and its exception has the `path`.
    """
    names = [os.fspath(path) for path in paths]
    with Summary(columns=columns, query=query, limit=limit) as empty:
        if not names:
            return empty.copy()
    size = -(-len(names) // max(1, shares))
    cut = [names[first : first + size] for first in range(0, len(names), size)]
    by = _by_executor if isinstance(client, Executor) else _by_client
    return Summary.from_bytes(by(client, cut, columns, query, limit), limit=limit)
