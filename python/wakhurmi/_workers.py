"""What services with a plan and without have in common."""

from __future__ import annotations

import ctypes
from types import TracebackType
from typing import Callable, Iterator, Optional, Type, TypeVar

from ._errors import BadNumber, Misused
from ._native import _library, _number
from ._owner import _Owner

_Same = TypeVar("_Same", bound="_Workers")


class _Workers(_Owner):
    """What a service has, with a plan or without.

    As a context manager it closes at the end. Where an error leaves the block, or Ctrl-C, the service is stopped first, so that no thread waits on,
    and what calls still have isn't closed before they end.
    """

    __slots__ = ("workers", "max_leases")

    def __init__(self, workers: int, max_leases: int) -> None:
        super().__init__(_library.wakhurmi_close)
        self.workers = _number(workers, "number of workers")
        self.max_leases = _number(max_leases, "number of leases")

    def __enter__(self: _Same) -> _Same:
        return self

    def __exit__(self, kind: Optional[Type[BaseException]], error: Optional[BaseException], trace: Optional[TracebackType]) -> None:
        try:
            if error is not None and not self._closed:
                self._call([], _library.wakhurmi_stop)
            self.close()
        except Misused:
            if error is None:
                raise

    def _worker(self, worker: int) -> int:
        if 0 <= worker < self.workers:
            return worker
        raise BadNumber(f"there is no worker {worker}")

    def stop(self) -> None:
        """Stops the service: a call that waits to take or to leave, or would have to, raises Stopped, and a plan's workers are told no more work.
        Work that is under way goes on.

        Any thread may call this, and the handler of a signal. Raises Misused where the service was ended.
        """
        self._do("stop")

    def leases_out(self) -> int:
        """How many leases were out at a moment during the call. Any thread may call this. Raises Misused where the service was ended."""
        leases = ctypes.c_uint32()
        self._do("leases_out", ctypes.byref(leases))
        return leases.value

    def finish(self) -> None:
        """Ends the service. What workers still have stays theirs in the history, which can be read from now on.

        Raises Misused where a worker is in a call or the service was ended before, and NoMemory, behind which it isn't ended.
        """
        self._do("finish")

    def history(self) -> Iterator[bytes]:
        """The lines of the history of the ended service, each with its line break, or those behind the parts where it was taken.

        The text is what `leases run --history` prints. Its first line raises Misused where the service hasn't been ended. Each line does so where
        another thread reads the history at this moment, and raises NoMemory.
        """
        return self._lines("history")


class Blocking:
    """What `blocking` of a service gives."""

    __slots__ = ("_enter", "_leave", "_worker")

    def __init__(self, enter: Callable[[int], None], leave: Callable[[int], None], worker: int) -> None:
        self._enter, self._leave, self._worker = enter, leave, worker

    def __enter__(self) -> None:
        self._enter(self._worker)

    def __exit__(self, *_: object) -> None:
        self._leave(self._worker)
