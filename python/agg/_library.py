"""The shared library, by ctypes: its functions, and a handle, which is one slot of it with the lock under which it is used.

ctypes gives up the interpreter's lock while a call works, so that other threads go on. A slot is for one call at a time: so each handle has
a lock of its own.
"""

from __future__ import annotations

import ctypes
import os
import threading
import weakref
from pathlib import Path
from typing import Any, List, NoReturn, Optional, Tuple

from . import errors

VERSION = "0.1.0"
"""The version of this package, and of the library that it needs."""

DONE = 0
NO_MEMORY = 1
NOT_OPEN = 3
FIRST_REFUSAL = 10
# A text of more bytes is not left in the slot behind its fetching.
KEPT_LEN = 65_536
# No text's length.
UNTOLD = ctypes.c_size_t(-1).value


class _Slot(ctypes.Structure):
    _fields_ = [("full", ctypes.c_bool), ("at", ctypes.c_void_p)]


class _Delivery(ctypes.Structure):
    _fields_ = [("kind", ctypes.c_uint32), ("upto", ctypes.c_uint32)]


class _Place(ctypes.Structure):
    _fields_ = [("kind", ctypes.c_uint32), ("first", ctypes.c_uint64), ("second", ctypes.c_uint64)]


def _declare(library: ctypes.CDLL) -> List[str]:
    """Declares the functions that the package calls. Tells those that the library lacks."""
    slot, size, sized = ctypes.POINTER(_Slot), ctypes.c_size_t, ctypes.POINTER(ctypes.c_size_t)
    text = [ctypes.c_char_p, size]
    out = [ctypes.POINTER(ctypes.c_char), size, sized]
    seeded = [ctypes.c_uint64, ctypes.c_uint64, ctypes.c_uint64]
    delivery, place, number = ctypes.POINTER(_Delivery), ctypes.POINTER(_Place), ctypes.c_uint32
    arguments = {
        "agg_new": [slot, *text, *text, *seeded],
        "agg_load": [slot, *text, *seeded],
        "agg_feed": [slot, *text, delivery],
        "agg_feed_rows": [slot, number, number, number, *text, delivery],
        "agg_merge": [slot, slot],
        "agg_merge_bytes": [slot, *text],
        "agg_save": [slot, sized],
        "agg_answer": [slot, ctypes.c_bool, sized, sized],
        "agg_answer_columns": [slot, sized],
        "agg_known": [slot, sized],
        "agg_query": [slot, sized],
        "agg_columns": [slot, sized],
        "agg_reason": [slot, place, sized],
        "agg_fetch": [slot, *out],
        "agg_close": [slot],
        "agg_status_name": [number, *out],
        "agg_version": out,
    }
    lacking = []
    for name, kinds in arguments.items():
        try:
            function = getattr(library, name)
        except AttributeError:
            lacking.append(name)
        else:
            function.restype, function.argtypes = ctypes.c_uint32, kinds
    return lacking


def _short_text(function: Any, *arguments: Any) -> str:
    """What a function writes that needs no slot, of at most 64 bytes."""
    out, wanted = ctypes.create_string_buffer(64), ctypes.c_size_t()
    if function(*arguments, out, len(out), ctypes.byref(wanted)) != DONE:
        return ""
    return ctypes.string_at(out, wanted.value).decode()


def _load() -> ctypes.CDLL:
    """The library that AGG_LIBRARY names, or the one of this package. One of another version is refused."""
    path = os.environ.get("AGG_LIBRARY") or str(Path(__file__).with_name("libagg.so.1"))
    try:
        library = ctypes.CDLL(path)
    except OSError as why:
        raise ImportError(f"agg: no library: {why}. It is in the wheel; AGG_LIBRARY names another", path=path) from why
    lacking = _declare(library)
    found = "unknown" if "agg_version" in lacking else _short_text(library.agg_version)
    if not lacking and found == VERSION:
        return library
    without = f", without {lacking[0]}" if lacking else ""
    others = f" and {len(lacking) - 1} others" if len(lacking) > 1 else ""
    wanted = f"this package is of version {VERSION}, and needs the library of that version, which is in its wheel"
    raise ImportError(f"agg: the library {path} is of version {found}{without}{others}; {wanted}; AGG_LIBRARY names another", path=path)


LIBRARY = _load()


def version() -> str:
    """The version of the library."""
    return _short_text(LIBRARY.agg_version)


def status_name(status: int) -> str:
    """The name of a status, or no text where the library has none."""
    return _short_text(LIBRARY.agg_status_name, status)


def _place(place: _Place) -> errors.Place:
    names = {1: ("byte",), 2: ("row",), 3: ("row", "column"), 4: ("origin",), 5: ("origin", "number")}.get(place.kind, ())
    return errors.Place(**dict(zip(names, (place.first, place.second))))


def refusal(status: int, sentence: str, place: errors.Place) -> errors.Refused:
    """The exception of a status."""
    known = errors.BY_STATUS.get(status)
    if known is None:
        return errors.UnknownRefusal(sentence, place, status=status, name=status_name(status) or f"Status{status}")
    return known(sentence, place)


class _Asked:
    """A call that tells a text: the text's length, when the library has told it, and the text, if an inner call had to keep it."""

    __slots__ = ("length", "text")

    def __init__(self) -> None:
        self.length = ctypes.c_size_t(UNTOLD)
        self.text: Optional[bytes] = None


class _Lost:
    """The lock of a handle that another thread was using when this process was forked off: here that call never ends."""

    def _raise(self, *_: object, **__: object) -> NoReturn:
        raise errors.Forked(
            "another thread was using the summary when this process was forked off, and its call never ends here:"
            " send a summary to a process as its bytes or pickled, or have multiprocessing spawn its processes"
        )

    __enter__ = __exit__ = acquire = release = _is_owned = _raise


_LOST = _Lost()


class Handle:
    """A slot and its lock.

    Python runs a signal's handler, or the `__del__` of what the collector finds, between any two of its own steps: never inside a call of
    the library, but also here, under the lock. So the lock is one that its thread can take again. Such an inner call may ask: it first
    keeps the text that the outer one has been told. It may not change or close the summary that the outer one is at work on.

    All that is raised, also by a handler, leaves the lock free and nothing remembered that is not so.
    """

    __slots__ = ("_slot", "_lock", "_asked", "_refusals", "_rows", "__weakref__")

    def __init__(self) -> None:
        self._lock: Any = threading.RLock()
        # The innermost call that is to be told a text.
        self._asked: Optional[_Asked] = None
        # How many calls were refused.
        self._refusals = 0
        # How many rows the answer has, as long as that is known.
        self._rows: Optional[int] = None
        self._slot = _Slot()
        _HANDLES.add(self)

    def __del__(self, close: Any = LIBRARY.agg_close, lost: Any = _LOST) -> None:
        # Nobody else has the handle now, so that no lock is wanted. A slot that was lost inside a call stays as it is.
        if hasattr(self, "_slot") and self._lock is not lost:
            close(self._slot)

    def after_fork(self) -> None:
        """Gives the handle up, in the child of a fork, if another thread was using it: that thread is not here."""
        if self._lock is _LOST:
            return
        if self._lock.acquire(blocking=False):
            self._lock.release()
        else:
            self._lock = _LOST

    def _enter_alone(self) -> None:
        """Refuses what may not be done inside another call of this thread."""
        if self._lock._is_owned():
            raise errors.InUse(
                "this thread is inside a call on the summary, into which a signal's handler or a __del__ came: there it can be asked and"
                " saved, but not fed, merged into or closed: do that when the call has ended"
            )

    def _call(self, function: Any, *arguments: Any) -> None:
        """Calls a function, and raises what it is refused for. The lock is held."""
        refusals = self._refusals
        status = function(self._slot, *arguments)
        if status == DONE:
            return
        if status == NOT_OPEN:
            raise ValueError("the summary is closed")
        self._refusals += 1
        if status == NO_MEMORY:
            raise errors.NoMemory("out of memory")
        if status < FIRST_REFUSAL:
            raise refusal(status, "", errors.Place())
        place = _Place()
        try:
            sentence = self._told(LIBRARY.agg_reason, place).decode("utf-8", "replace")
        except errors.NoMemory:
            sentence, place = "", _Place()
        if self._refusals != refusals + 1:
            # The sentence is on an inner call.
            sentence, place = "", _Place()
        raise refusal(status, sentence, _place(place))

    def _told(self, function: Any, *arguments: Any) -> bytes:
        """What a call tells. The lock is held."""
        asked, outer = _Asked(), self._asked
        self._keep_outer()
        try:
            self._asked = asked
            self._call(function, *arguments, asked.length)
            fetched = self._fetch(asked.length.value)
            # Whatever was fetched, if an inner call came before.
            told = fetched if asked.text is None else asked.text
        finally:
            self._asked = outer
        if told is None:
            raise RuntimeError("the library gave another length than it has")
        if len(told) > KEPT_LEN:
            self._keep_outer()
            LIBRARY.agg_query(self._slot, ctypes.c_size_t())
        return told

    def _fetch(self, length: int) -> Optional[bytes]:
        """What was told last, if it has at most that length. The lock is held."""
        # No pointer is null, and no room empty.
        out = ctypes.create_string_buffer(max(length, 1))
        status = LIBRARY.agg_fetch(self._slot, out, length, ctypes.c_size_t())
        return ctypes.string_at(out, length) if status == DONE else None

    def _keep_outer(self) -> None:
        """Fetches what an outer call was told, before another text takes its place. The lock is held."""
        asked = self._asked
        if asked is not None and asked.text is None and asked.length.value != UNTOLD:
            wanted = ctypes.c_size_t()
            LIBRARY.agg_fetch(self._slot, ctypes.create_string_buffer(1), 0, wanted)
            text = self._fetch(wanted.value)
            # Otherwise a call inside of this one was quicker.
            if asked.text is None:
                asked.text = text

    def change(self, function: Any, *arguments: Any) -> None:
        """A call that opens the summary or changes what it knows."""
        self._enter_alone()
        with self._lock:
            self._rows = None
            self._call(function, *arguments)

    def deliver(self, function: Any, *arguments: Any) -> Tuple[int, int]:
        """A call that feeds a batch: what became of it."""
        delivery = _Delivery()
        self.change(function, *arguments, delivery)
        return delivery.kind, delivery.upto

    def merge(self, other: Handle) -> None:
        """Merges another handle's summary, which is not this one.

        Nobody waits for a lock here who has one: two that did, or one whose handler then waits for the other lock, would wait for ever.
        """
        self._enter_alone()
        first, second = self, other
        while True:
            with first._lock:
                if second._lock._is_owned():
                    # By a call of this thread, into which a handler came: it is that call's to release.
                    self._rows = None
                    self._call(LIBRARY.agg_merge, other._slot)
                    return
                release = second._lock.release
                try:
                    if second._lock.acquire(blocking=False):
                        self._rows = None
                        self._call(LIBRARY.agg_merge, other._slot)
                        return
                finally:
                    # At once, since a handler may raise at the start of any function.
                    try:
                        release()
                    except RuntimeError:
                        # It was not taken.
                        pass
            first, second = second, first

    def ask(self, function: Any) -> bytes:
        """What a call tells."""
        with self._lock:
            return self._told(function)

    def answer(self, aligned: bool) -> bytes:
        """The answer's table."""
        with self._lock:
            return self._told(LIBRARY.agg_answer, aligned, ctypes.c_size_t())

    def count_rows(self) -> int:
        """How many rows the answer has, counted anew where something may have changed. The table is not fetched."""
        is_inner = self._lock._is_owned()
        with self._lock:
            if self._rows is not None:
                return self._rows
            rows = ctypes.c_size_t()
            self._keep_outer()
            self._call(LIBRARY.agg_answer, False, rows, ctypes.c_size_t())
            LIBRARY.agg_query(self._slot, ctypes.c_size_t())
            # What an inner call counts may be of before the outer one.
            if not is_inner:
                self._rows = rows.value
            return rows.value

    def close(self) -> None:
        """Gives back the memory, and can be called again."""
        self._enter_alone()
        with self._lock:
            self._rows = None
            LIBRARY.agg_close(self._slot)


_HANDLES: weakref.WeakSet[Handle] = weakref.WeakSet()


def _after_fork() -> None:
    for handle in list(_HANDLES):
        handle.after_fork()


if hasattr(os, "register_at_fork"):
    os.register_at_fork(after_in_child=_after_fork)
