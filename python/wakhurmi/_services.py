"""A service without a plan, and parts of its history."""

from __future__ import annotations

import ctypes
import math
import time
from itertools import starmap
from types import TracebackType
from typing import Callable, Iterator, List, NamedTuple, Optional, Sequence, Set, Tuple, Type

from ._errors import _OK, _TIMED_OUT, BadNumber, Misused, _demand
from ._native import _array, _library, _number, _Options, _time
from ._owner import _hears_signals, _Owner
from ._workers import Blocking, _Workers

# So long the main thread waits at once, in seconds.
_SLICE = 0.1


class _Deed(NamedTuple):
    """A call that can wait, and what it is where it waits until a deadline."""

    name: str
    wait: Callable[..., int]
    wait_until: Callable[..., int]


_TAKE = _Deed("take", _library.wakhurmi_take, _library.wakhurmi_take_until)
_TAKE_USES = _Deed("take_uses", _library.wakhurmi_take_uses, _library.wakhurmi_take_uses_until)
_LEAVE = _Deed("leave", _library.wakhurmi_leave, _library.wakhurmi_leave_until)


class Part(_Owner):
    """Entries of a history, which Service.take_history has taken. It doesn't need the service.

    A new one has none. Iterating gives its lines, each with its line break, from the first one on. The lines of a service's parts, in the order
    in which they were taken, and then those of Service.history are one text. Misused comes while another thread is in a call with the part.
    """

    __slots__ = ()

    def __init__(self) -> None:
        super().__init__(_library.wakhurmi_close_part)

    def __iter__(self) -> Iterator[bytes]:
        return self._lines("part_text") if self._pointer or self._closed else iter(())

    def __enter__(self) -> Part:
        return self

    def __exit__(self, *_: object) -> None:
        self.close()


class Service(_Workers):
    """A service for 1 to 256 workers, of whom 1 to 256 may have a lease at once, with at most 65,536 project locks.

    With `all_projects` it has one lock more, whose number is `all_projects` of the service: while a worker owns it no other worker owns a lock.
    `maxima` come in place of locks: for each of 1 to 64 shared services how many workers may use it at once, 1 to 32. Uses are taken by `take_uses`,
    and `take` takes a lease alone then. With `keeping` it keeps so many of the last entries of its history, and hardly more than twice as many and 200
    for each worker; else all.
    Raises BadNumber where a number isn't in its range, or there are locks beside maxima; and NoMemory.

    As a context manager it closes at the end. Where an error leaves the block, or Ctrl-C, the service is stopped first, so that no thread waits on,
    and what calls still have isn't closed before they end.
    """

    __slots__ = ("locks", "all_projects", "maxima", "_leased")

    def __init__(
        self,
        workers: int,
        max_leases: int,
        locks: int = 0,
        *,
        all_projects: bool = False,
        maxima: Optional[Sequence[int]] = None,
        keeping: Optional[int] = None,
    ) -> None:
        super().__init__(workers, max_leases)
        self.locks = _number(locks, "number of locks")
        self.all_projects = locks if all_projects else None
        self.maxima = None if maxima is None else tuple(maxima)
        self._leased: Set[int] = set()
        options = _Options(ctypes.sizeof(_Options), workers, max_leases, locks, all_projects, keeping is not None)
        options.kept_entries = 0 if keeping is None else _number(keeping, "number of entries", 2**64 - 1)
        if self.maxima is not None:
            # None at all are refused below, where a null pointer says that there are locks.
            options.maxima, options.services = _array(self.maxima or (0,), "maximum"), len(self.maxima)
        # It isn't open yet, so this is no call with it.
        answer = _library.wakhurmi_open_with(ctypes.byref(options), ctypes.byref(self._pointer))
        _demand([answer], "open")

    def _wait(self, answers: List[int], deed: _Deed, deadline: Optional[float], *arguments: object) -> None:
        """Makes a call that can wait: in the main thread by slices, the first of which doesn't wait."""
        hears_signals = _hears_signals()
        if deadline is None and not hears_signals:
            return self._call(answers, deed.wait, *arguments)
        end = math.inf if deadline is None else deadline
        if math.isnan(end):
            raise BadNumber("the deadline is no time")
        until = 0.0 if hears_signals else end
        token = object()
        try:
            pointer = self._begin(token)
            while True:
                answers[:] = starmap(deed.wait_until, [(pointer, *arguments, ctypes.byref(_time(until)))])
                if answers[0] != _TIMED_OUT or until >= end:
                    return None
                until = min(time.monotonic() + _SLICE, end)
        finally:
            try:
                self._running.discard(token)
            finally:  # An interrupt may have come before.
                self._running.discard(token)

    def _release(self, answers: List[int], function: Callable[..., int], worker: int) -> None:
        try:
            self._call(answers, function, worker)
        finally:
            if answers == [_OK]:
                self._leased.discard(worker)

    def _gain(self, worker: int, call: str, make: Callable[[List[int]], None]) -> None:
        """Has a worker take something by a call. What the library gave just as an interrupt came is given back, where the worker had no lease before."""
        answers: List[int] = []
        had_lease = worker in self._leased
        try:
            make(answers)
            _demand(answers, call)
            self._leased.add(worker)
            return
        except BaseException:
            if answers == [_OK] and not had_lease:
                self._release([], _library.wakhurmi_hand_back, worker)
            raise

    def _take(self, deed: _Deed, worker: int, numbers: Tuple[int, ...], deadline: Optional[float]) -> None:
        def wait(answers: List[int]) -> None:
            self._wait(answers, deed, deadline, self._worker(worker), _array(numbers, "lock or shared service"), len(numbers))

        self._gain(worker, deed.name, wait)

    def _try_take(self, call: str, function: Callable[..., int], worker: int, numbers: Tuple[int, ...]) -> None:
        def make(answers: List[int]) -> None:
            self._call(answers, function, self._worker(worker), _array(numbers, "lock or shared service"), len(numbers))

        self._gain(worker, call, make)

    def take(self, worker: int, *locks: int, deadline: Optional[float] = None) -> None:
        """Takes a lease and these locks, which strictly rise: the locks that the worker doesn't own yet, and the lease where it has none.

        Waits while another worker has one of the locks, or as many leases as may be are out, and for calls that are queued (wakhurmi.h). Who takes
        locks one call after another can wait for one who does so in another order: that is the caller's to avoid.

        Raises Stopped where it would have to wait and the service has been stopped; TimedOut where it would have to wait beyond the deadline;
        BadNumber where there is no such worker or lock, or the locks don't strictly rise; Misused where the worker is in a blocking section,
        or another thread is in a call with it, or the service was ended; NoMemory. At a KeyboardInterrupt nothing was taken, but a worker that
        had a lease before may have the locks too; `hand_back` gives them back with the rest.
        """
        self._take(_TAKE, worker, locks, deadline)

    def try_take(self, worker: int, *locks: int) -> None:
        """Takes as `take` does, and doesn't wait, also once the service has been stopped.

        Raises Busy where another worker has one of the locks, or as many leases as may be are out: the history shows the failed entry. Else as
        `take` without a deadline, but never Stopped.
        """
        self._try_take("try_take", _library.wakhurmi_try_take, worker, locks)

    def take_uses(self, worker: int, *services: int, deadline: Optional[float] = None) -> None:
        """Takes a lease and one use of each of these shared services, whose numbers strictly rise, for a worker that has nothing.

        Waits while as many workers use one of them as may, or as many leases as may be are out, and for calls that are queued, as `take` does.
        `hand_back` gives the uses back, `enter` parks them, and `leave` takes them again.

        Raises Stopped and TimedOut as `take`; BadNumber where there is no such worker or shared service, or the numbers don't strictly rise; Misused
        where the worker has a lease or is in a blocking section, or the service was opened without maxima, or another thread is in a call with the
        worker, or the service was ended; NoMemory. At a KeyboardInterrupt nothing was taken.
        """
        self._take(_TAKE_USES, worker, services, deadline)

    def try_take_uses(self, worker: int, *services: int) -> None:
        """Takes as `take_uses` does, and doesn't wait, also once the service has been stopped.

        Raises Busy where as many workers as may use one of the services, or as many leases as may be are out: the history shows the failed entry. Else
        as `take_uses` without a deadline, but never Stopped.
        """
        self._try_take("try_take_uses", _library.wakhurmi_try_take_uses, worker, services)

    def hand_back(self, worker: int) -> None:
        """Hands back the lease and all locks of the worker. It waits for no lease and no lock.

        Raises BadNumber where there is no such worker; Misused where it has nothing or is in a blocking section, or another thread is in a call with
        it, or the service was ended; NoMemory.
        """
        answers: List[int] = []
        self._release(answers, _library.wakhurmi_hand_back, self._worker(worker))
        _demand(answers, "hand_back")

    def enter(self, worker: int) -> None:
        """Enters a blocking section, for the time in which the worker waits for something else: hands back the lease and all locks, and notes them.

        Raises BadNumber where there is no such worker; Misused where it has no lease or is in a blocking section, or another thread is in a call
        with it, or the service was ended; NoMemory.
        """
        answers: List[int] = []
        self._release(answers, _library.wakhurmi_enter, self._worker(worker))
        _demand(answers, "enter")

    def leave(self, worker: int, deadline: Optional[float] = None) -> None:
        """Leaves the blocking section: takes a lease and all locks that the worker had when it entered. Waits as `take` does.

        Raises Stopped and TimedOut as `take`; BadNumber where there is no such worker; Misused where it is in no blocking section, or another thread is
        in a call with it, or the service was ended; NoMemory. Behind each error, and a KeyboardInterrupt, a worker that was in its section is so yet.
        """
        answers: List[int] = []
        try:
            self._wait(answers, _LEAVE, deadline, self._worker(worker))
            _demand(answers, "leave")
            self._leased.add(worker)
            return
        except BaseException:
            if answers == [_OK]:
                self._release([], _library.wakhurmi_enter, worker)
            raise

    def taking(self, worker: int, *locks: int, deadline: Optional[float] = None) -> Taking:
        """A context manager that takes at its begin and hands back at its end, also behind an error. The worker has nothing before.

        The begin raises what `take` raises, and the end what `hand_back` raises. But where an error leaves the block, and the worker has nothing or is in
        a blocking section that it couldn't leave, that error goes on.
        """
        return Taking(self, _TAKE, worker, locks, deadline)

    def using(self, worker: int, *services: int, deadline: Optional[float] = None) -> Taking:
        """The same by `take_uses`, with uses of these shared services."""
        return Taking(self, _TAKE_USES, worker, services, deadline)

    def blocking(self, worker: int, deadline: Optional[float] = None) -> Blocking:
        """A context manager for a blocking section: enters at its begin and leaves at its end, also behind an error.

        The begin raises what `enter` raises, and the end what `leave` raises, also where another error leaves the block: the worker hasn't its lease and
        its locks then, and is in its section yet.
        """
        return Blocking(self.enter, lambda of: self.leave(of, deadline), worker)

    def take_history(self, part: Optional[Part] = None) -> Part:
        """Takes the history so far, while the service runs: the entries that it keeps become those of a part. Any thread may call this.

        A part that is given gets them in place of those that it had, and its room serves again; else a new one does. It is the answer.
        Raises Misused where the service was ended, or another thread is in a call with the part; BadNumber where the history has more than
        2^62 entries; NoMemory.
        """
        taken = Part() if part is None else part
        token = object()
        try:
            self._do("take_history", ctypes.byref(taken._begin(token)))
        finally:
            try:
                taken._running.discard(token)
            finally:  # An interrupt may have come before.
                taken._running.discard(token)
        return taken


class Taking:
    """What Service.taking and Service.using give."""

    __slots__ = ("_service", "_deed", "_worker", "_numbers", "_deadline")

    def __init__(self, service: Service, deed: _Deed, worker: int, numbers: Tuple[int, ...], deadline: Optional[float]) -> None:
        self._service, self._deed, self._worker, self._numbers, self._deadline = service, deed, worker, numbers, deadline

    def __enter__(self) -> None:
        self._service._take(self._deed, self._worker, self._numbers, self._deadline)

    def __exit__(self, kind: Optional[Type[BaseException]], error: Optional[BaseException], trace: Optional[TracebackType]) -> None:
        try:
            self._service.hand_back(self._worker)
        except Misused:
            if error is None:
                raise
        except KeyboardInterrupt:
            # It came before the hand-back or behind it.
            self._service._release([], _library.wakhurmi_hand_back, self._worker)
            raise
