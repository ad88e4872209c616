"""Plans, services over them, and the threads that run one."""

from __future__ import annotations

import contextlib
import ctypes
import sys
import threading
import time
from typing import Callable, Dict, Iterator, List, Optional, Tuple

from ._errors import _OK, Busy, Error, Misused, Stopped, _demand, _error
from ._jobs import Job, Outcome, Retention, _job
from ._native import _CLOSED, _ENDED, _LARGEST, _NONE, _array, _library, _number, _Work
from ._owner import _hears_signals, _Owner
from ._workers import Blocking, _Workers

ALL_PROJECTS = _LARGEST
"""The lock of a task during which no other worker owns a lock."""
# So long it naps where a plan has nothing for it to do yet: at first, and at most.
_FIRST_NAP, _LONGEST_NAP = 0.0005, 0.02


class PlannedService(_Workers):
    """A service over a plan, for 1 to 256 workers, of whom 1 to 256 may have a lease at once: as many as workers where nothing else is said.

    Raises BadNumber where a number isn't in its range; Cycle where a task of the plan comes after itself, or after one that does; Misused where
    another thread is in a call with the plan; NoMemory. It doesn't need the plan once it is open.

    As a context manager it closes at the end. Where an error leaves the block, or Ctrl-C, the service is stopped first, so that no thread waits on,
    and what calls still have isn't closed before they end.
    """

    __slots__ = ("_untold",)

    def __init__(self, plan: Plan, workers: int, max_leases: Optional[int] = None) -> None:
        super().__init__(workers, workers if max_leases is None else max_leases)
        self._untold: Dict[int, _Work] = {}
        plan._do("open_plan", workers, self.max_leases, ctypes.byref(self._pointer))

    def _tell(self, call: str, function: Callable[..., int], worker: int, *arguments: object) -> Optional[Job]:
        """Makes a call that says what is next. What was said as an interrupt came `next` tells."""
        work, answers = _Work(what=_ENDED), []  # type: Tuple[_Work, List[int]]
        try:
            self._call(answers, function, worker, *arguments, ctypes.byref(work))
            if answers[0] != _OK:
                error = _error(answers[0], call)
                error.closed = work.what == _CLOSED
                raise error
            return _job(worker, work)
        except BaseException:
            if answers == [_OK]:
                self._untold[worker] = work
            raise

    def _next(self, call: str, function: Callable[..., int], worker: int) -> Optional[Job]:
        untold = self._untold.pop(self._worker(worker), None) if self._untold else None
        return self._tell(call, function, worker) if untold is None else _job(worker, untold)

    def next(self, worker: int) -> Optional[Job]:
        """What the worker does next, or None where all tasks have ended. Waits while there is nothing to do yet.

        Raises Stopped where the service has been stopped; BadNumber where there is no such worker; Misused where the worker has an item or a fetch,
        or is in a blocking section, or another thread is in a call with it, or the service was ended; NoMemory, behind which this is the call to
        make. At a KeyboardInterrupt nothing is lost: the next call of `next` or `try_next` tells what was given.
        """
        if not _hears_signals():
            return self._next("next", _library.wakhurmi_next, worker)
        nap = _FIRST_NAP
        while True:
            try:
                return self.try_next(worker)
            except Busy:
                time.sleep(nap)
                nap = min(2 * nap, _LONGEST_NAP)

    def try_next(self, worker: int) -> Optional[Job]:
        """What the worker does next, or None where all tasks have ended. Raises Busy where there is nothing to do yet; else as `next`."""
        return self._next("try_next", _library.wakhurmi_try_next, worker)

    def done(self, worker: int, passed: bool = True, number: int = 0) -> None:
        """Closes the item or the fetch that the worker has: it has passed, with this number below 2^64, or failed.

        A fetch waits for the task's lock and a lease. It raises Stopped, and isn't closed, where it would have to wait and the service has been
        stopped. Raises BadNumber where there is no such worker or the number is none; Misused where the worker has no item and no fetch, or another
        thread is in a call with it, or the service was ended; NoMemory, behind which it isn't closed.
        """
        self._do("done", self._worker(worker), passed, _number(number, "number of a unit", 2**64 - 1))

    def done_next(self, worker: int, passed: bool = True, number: int = 0) -> Optional[Job]:
        """Closes it as `done` does, and says as `next` what the worker does next: in one step, with no entry of another worker in between. In the
        main thread it is two.

        Raises what both raise. `closed` of an error, as of each that is Stopped or NoMemory, says whether the unit was closed: then `next` is the call to
        make. Behind a KeyboardInterrupt `next` raises Misused where it wasn't.
        """
        arguments = (self._worker(worker), passed, _number(number, "number of a unit", 2**64 - 1))
        if not _hears_signals():
            return self._tell("done_next", _library.wakhurmi_done_next, *arguments)
        self.done(*arguments)
        try:
            return self.next(worker)
        except Error as error:
            error.closed = True
            raise

    def jobs(self, worker: int) -> Iterator[Job]:
        """What the worker does, one after the other, until all tasks have ended.

        An item or a fetch is closed where the next one is asked for, as the job says then. Where an error leaves the loop it isn't closed. Raises
        what `next` and `done_next` raise.
        """
        job = self.next(worker)
        while job is not None:
            yield job
            job = self.done_next(worker, job.passed, job.number) if job.is_unit else self.next(worker)

    def enter(self, worker: int) -> None:
        """Enters a blocking section, for the time in which the worker of a task waits for something else: hands back the lease and the lock.

        Raises BadNumber where there is no such worker; Misused where it has no lease, or has an item, or is in a blocking section, or another thread
        is in a call with it, or the service was ended; NoMemory.
        """
        self._do("enter", self._worker(worker))

    def leave(self, worker: int) -> None:
        """Leaves the blocking section: takes the lock again, and a lease. Waits while others have them.

        Raises Stopped where it would have to wait and the service has been stopped; BadNumber where there is no such worker; Misused where it is in no
        blocking section, or another thread is in a call with it, or the service was ended; NoMemory. Behind each error, and a KeyboardInterrupt, a
        worker that was in its section is so yet.
        """
        answers: List[int] = []
        try:
            self._call(answers, _library.wakhurmi_leave, self._worker(worker))
            _demand(answers, "leave")
            return
        except BaseException:
            if answers == [_OK]:
                self._call([], _library.wakhurmi_enter, worker)
            raise

    def blocking(self, worker: int) -> Blocking:
        """A context manager for a blocking section: enters at its begin and leaves at its end, also behind an error.

        The begin raises what `enter` raises, and the end what `leave` raises, also where another error leaves the block.
        """
        return Blocking(self.enter, self.leave, worker)

    def task_outcome(self, task: int) -> Outcome:
        """What became of a task. Raises BadNumber where there is no such task; Misused where the service hasn't been ended, or another thread reads of
        it at this moment."""
        outcome = ctypes.c_uint()
        self._do("task_outcome", _number(task, "task"), ctypes.byref(outcome))
        return Outcome(outcome.value)

    def item_outcome(self, task: int, action: int, item: Optional[int]) -> Tuple[Outcome, int]:
        """What became of an item, or for None of the action's fetch, and with which number it has passed: 0 where it has none. Raises as
        `task_outcome`."""
        outcome, number = ctypes.c_uint(), ctypes.c_uint64()
        place = _NONE if item is None else _number(item, "item", _NONE - 1)
        self._do("item_outcome", _number(task, "task"), _number(action, "action"), place, ctypes.byref(outcome), ctypes.byref(number))
        return Outcome(outcome.value), number.value


class Plan(_Owner):
    """What there is to do: tasks, for 0 to 65,535 project locks. Raises BadNumber where there are more, and NoMemory.

    Tasks are numbered as they are made, an action by its place in its task, and an item by its place in its action, each from 0. A task is started once
    all that it comes after have passed, and skipped where one of these has failed or was skipped. Its worker begins the fetch of each action, queues
    its items, and runs items itself until these have ended. Behind a unit that has failed its action's others run to their end, and the task ends
    as failed. All calls raise Misused while another thread is in a call with the plan.
    """

    __slots__ = ()

    def __init__(self, locks: int = 0) -> None:
        super().__init__(_library.wakhurmi_close_plan)
        answer = _library.wakhurmi_make_plan(_number(locks, "number of locks"), ctypes.byref(self._pointer))
        _demand([answer], "make_plan")

    def __enter__(self) -> Plan:
        return self

    def __exit__(self, *_: object) -> None:
        self.close()

    def task(self, lock: int) -> int:
        """Adds a task of a project lock, or of ALL_PROJECTS: while its worker owns its lock, no other worker owns one. It is the task's number.

        Raises BadNumber where there is no such lock; TooMany where there are 1,048,576 tasks; NoMemory.
        """
        task = ctypes.c_uint32()
        self._do("plan_task", _number(lock, "lock"), ctypes.byref(task))
        return task.value

    def after(self, task: int, *before: int) -> None:
        """Has a task come after others. Raises BadNumber where one of them isn't made; TooMany where it would have more than 1,048,576; NoMemory."""
        self._do("plan_after", _number(task, "task"), _array(before, "task"), len(before))

    def action(self, task: int, items: int = 1, retention: Retention = Retention.RETAIN, *, fetch: bool = False) -> None:
        """Adds an action behind those of a task, with so many items, at least one, and perhaps a fetch, which comes before them.

        Raises BadNumber where there is no such task, no item or no such retention; TooMany where the task would have more than 1,048,576 actions, or the
        plan more than 4,194,304 items and fetches; Misused where the task's last action has Retention.RELEASE; NoMemory.
        """
        self._do("plan_action", _number(task, "task"), _number(retention, "retention"), _number(items, "number of items"), fetch)

    def open(self, workers: int, max_leases: Optional[int] = None) -> PlannedService:
        """Opens a service over the plan, which stays as it is. Raises what PlannedService raises."""
        return PlannedService(self, workers, max_leases)

    def run(self, work: Callable[[PlannedService, Job], object], threads: int, max_leases: Optional[int] = None) -> PlannedService:
        """Runs the plan on so many threads, and waits for their end. Each calls `work` for each job, with the service, which is the ended one that
        `run` answers with: it has the outcomes and the history.

        An item or a fetch is closed as the job says behind `work`. Where `work` raises an error it has failed, and the service is stopped; once the
        other threads have come to the end of their jobs, `run` raises that error. Where `work` or another thread calls `stop`, `run` answers with
        the service: what wasn't begun then hasn't ended. `work` may make the calls that fit its job, but for those that close it or say what is
        next. A thread that can't be made is left out. Raises what `open` raises, and NoMemory.

        At a KeyboardInterrupt the service is stopped, and the jobs that are under way come to their end first. A second one doesn't wait for them.
        """
        service = self.open(threads, max_leases)
        try:
            _Team(service, work).work_through()
            service.finish()
            return service
        except BaseException:
            service.__exit__(*sys.exc_info())
            raise


class _Team:
    """The threads that run a plan."""

    def __init__(self, service: PlannedService, work: Callable[[PlannedService, Job], object]) -> None:
        self._service, self._work = service, work
        self._errors: List[BaseException] = []
        # A thread counts itself before it begins, as an interrupt may leave `start` whether it has made one or not.
        self._counted = threading.Semaphore(0)
        self._running, self._all_made = 0, False
        self._lock, self._ended = threading.Lock(), threading.Event()

    def work_through(self) -> None:
        """Starts the threads, waits until all have ended, and raises the first error that one had."""
        try:
            self._start()
            self._ended.wait()
        except BaseException:
            self._stop()
            self._ended.wait()
            raise
        if self._errors:
            raise self._errors[0]

    def _start(self) -> None:
        try:
            for worker in range(self._service.workers):
                threading.Thread(target=self._work_as, args=(worker,), name=f"wakhurmi-{worker}").start()
                self._counted.acquire()
        except RuntimeError:
            if worker == 0:
                raise
        finally:
            with self._lock:
                self._all_made = True
                self._tell_the_end()

    def _tell_the_end(self) -> None:
        if self._all_made and self._running == 0:
            self._ended.set()

    def _stop(self) -> None:
        with contextlib.suppress(Misused):
            self._service.stop()

    def _work_as(self, worker: int) -> None:
        with self._lock:
            if self._all_made:
                # An interrupt came while this thread was made, and nobody waits for it.
                return
            self._running += 1
        self._counted.release()
        try:
            for job in self._service.jobs(worker):
                self._do(job)
        except Stopped:
            pass
        except BaseException as error:  # pylint: disable=broad-except
            self._errors.append(error)
            self._stop()
        finally:
            with self._lock:
                self._running -= 1
                self._tell_the_end()

    def _do(self, job: Job) -> None:
        try:
            self._work(self._service, job)
        except BaseException:
            # First the stop: to close a fetch may be to wait.
            self._stop()
            if job.is_unit:
                with contextlib.suppress(Error):
                    self._service.done(job.worker, passed=False)
            raise
