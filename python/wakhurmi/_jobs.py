"""What a worker of a plan is told to do, and what became of it."""

from __future__ import annotations

import dataclasses
import enum
from typing import Optional

from ._native import _ENDED, _NONE, _Work


class Retention(enum.IntEnum):
    """What becomes of a task's lock while the items of an action run."""

    RETAIN = 0
    """It is kept."""
    RELEASE = 1
    """It is given back for good: no action stands behind this one."""
    RELEASE_AND_REACQUIRE = 2
    """It is given back, and taken again."""


class Kind(enum.IntEnum):
    """What a worker is told to do next."""

    ITEM = 0
    """It runs an item, and has a lease. It closes it by `done` or `done_next`."""
    FETCH = 1
    """It runs an action's fetch, and has neither lock nor lease. It closes it as an item."""
    TASK = 2
    """It has begun a task, and has its lock and a lease. It does what it likes, and asks for what is next."""
    ACTION = 3
    """An action's units have ended. It has the lock and a lease again, but behind Retention.RELEASE neither. It goes on as behind TASK."""


class Outcome(enum.IntEnum):
    """What became of a task or a unit."""

    NOT_ENDED = 0
    PASSED = 1
    FAILED = 2
    SKIPPED = 3


@dataclasses.dataclass
class Job:
    """What a worker is told to do next, and what it tells of it.

    A task has its number, an action its place in its task, and an item its place in its action. `action` is None behind a TASK, and `item` but behind
    an ITEM. `passed` says of an ACTION whether all its units have passed. Of an ITEM or a FETCH the worker says there whether it has passed, as it has
    unless `fail` is called, and in `number` with which number. `jobs` and `Plan.run` close it so.
    """

    worker: int
    kind: Kind
    task: int
    action: Optional[int] = None
    item: Optional[int] = None
    passed: bool = True
    number: int = 0

    @property
    def is_unit(self) -> bool:
        """Whether it is an item or a fetch, which is closed."""
        return self.kind in (Kind.ITEM, Kind.FETCH)

    def fail(self) -> None:
        """Says that the item or the fetch has failed."""
        self.passed = False


def _job(worker: int, work: _Work) -> Optional[Job]:
    """What the library has told a worker. None says that all tasks have ended."""
    if work.what == _ENDED:
        return None
    kind = Kind(work.what)
    action = None if work.action == _NONE else work.action
    item = None if work.item == _NONE else work.item
    return Job(worker, kind, work.task, action, item, work.passed or kind is not Kind.ACTION)
