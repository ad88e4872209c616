"""What owns a pointer of the library: its calls and its end, also behind a fork, and lines of a text."""

from __future__ import annotations

import ctypes
import os
import threading
import weakref
from itertools import starmap
from typing import Callable, Iterator, List, Set

from ._errors import BadNumber, Misused, _demand
from ._native import _library

# How many forks lie between this process and the one that imported the module, and the thread that hears signals.
_forks = 0
_main_thread = threading.main_thread().ident


def _count_fork() -> None:
    global _forks, _main_thread
    _forks += 1
    _main_thread = threading.get_ident()


os.register_at_fork(after_in_child=_count_fork)

# So much of a history is read at once, and more than the longest line has where a line has more.
_ROOM, _MOST_ROOM = 2**17, 2**21


def _hears_signals() -> bool:
    """Whether this is the thread that hears signals."""
    return threading.get_ident() == _main_thread


class _Owner:
    """Owns what a pointer of the library points to.

    `_running` has a token for each call, and while it has one nobody closes. The lock is one that its thread may take again, as the handler of a
    signal may make calls. What nobody has any more no call can have, so it may be closed then.
    """

    __slots__ = ("_pointer", "_lock", "_running", "_closed", "_forks", "_closer", "__weakref__")

    def __init__(self, close: Callable[..., None]) -> None:
        self._pointer = ctypes.c_void_p()
        self._lock = threading.RLock()
        self._running: Set[object] = set()
        self._closed = False
        self._forks = _forks
        self._closer = weakref.finalize(self, close, self._pointer)
        # At the end of the process threads may yet be in calls.
        self._closer.atexit = False

    def __reduce__(self) -> str:
        raise TypeError(f"a {type(self).__name__} can't be copied or pickled")

    def _begin(self, token: object) -> ctypes.c_void_p:
        """Begins a call. Whoever calls this takes the token away afterwards, also behind an error."""
        if self._forks != _forks:
            raise Misused(f"this {type(self).__name__} was opened by a parent of this process")
        with self._lock:
            self._running.add(token)
            if self._closed:
                raise Misused(f"this {type(self).__name__} is closed")
        return self._pointer

    def _call(self, answers: List[int], function: Callable[..., int], *arguments: object) -> None:
        """Calls, and has the answer in `answers`.

        From the call to the list's new item all is C, and there no signal is heard. So whoever is interrupted knows by the list what was done.
        """
        token = object()
        try:
            answers[:] = starmap(function, [(self._begin(token), *arguments)])
        finally:
            try:
                self._running.discard(token)
            finally:  # An interrupt may have come before.
                self._running.discard(token)

    def _do(self, call: str, *arguments: object) -> None:
        answers: List[int] = []
        self._call(answers, getattr(_library, "wakhurmi_" + call), *arguments)
        _demand(answers, call)

    def _lines(self, call: str) -> Iterator[bytes]:
        place, written, room = ctypes.c_uint64(), ctypes.c_size_t(), ctypes.create_string_buffer(_ROOM)
        while True:
            try:
                self._do(call, ctypes.byref(place), room, len(room), ctypes.byref(written))
            except BadNumber:
                if len(room) == _MOST_ROOM:
                    raise
                room = ctypes.create_string_buffer(_MOST_ROOM)
                continue
            if written.value == 0:
                return
            yield from ctypes.string_at(room, written.value).splitlines(keepends=True)

    @property
    def closed(self) -> bool:
        """Whether it was closed."""
        return self._closed

    def close(self) -> None:
        """Gives all its memory back. A second time does nothing, as in the child of a fork.

        Raises Misused while a call with it runs. Without `close` the same happens once nothing refers to it any more.
        """
        if self._forks != _forks:
            return
        with self._lock:
            if self._running:
                raise Misused(f"close: a call with this {type(self).__name__} runs")
            self._closed = True
            self._closer()
