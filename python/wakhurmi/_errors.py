"""The answers of the library, and the errors as which they are raised."""

from __future__ import annotations

from typing import Dict, Sequence, Type


class Error(Exception):
    """What each error of this module is."""

    closed: bool = False
    """Of an error of PlannedService.done_next: whether the unit is closed. Then `next` is the call to make."""


class Busy(Error):
    """Another worker has what the call takes, or there is nothing to do yet."""


class Stopped(Error):
    """The service has been stopped, so the call doesn't wait, and no more work is given."""


class TimedOut(Error, TimeoutError):
    """Another worker has what the call takes, and the deadline has passed."""


class NoMemory(Error, MemoryError):
    """There wasn't enough memory."""


class BadNumber(Error, ValueError):
    """A number isn't in range, or locks don't strictly rise."""


class Misused(Error, RuntimeError):
    """The worker, the service, the plan or the part isn't where this call may be made."""


class Cycle(Error, ValueError):
    """A task comes after itself, or after one that does."""


class TooMany(Error, ValueError):
    """There are as many as may be."""


_OK, _TIMED_OUT = 0, 10
_ERRORS: Dict[int, Type[Error]] = {
    1: Busy,
    3: Stopped,
    5: NoMemory,
    6: BadNumber,
    7: Misused,
    _TIMED_OUT: TimedOut,
    11: Cycle,
    12: TooMany,
}


def _error(answer: int, call: str) -> Error:
    error = _ERRORS[answer]
    return error(f"{call}: {(error.__doc__ or '').rstrip('.')}")


def _demand(answers: Sequence[int], call: str) -> None:
    if answers[0] != _OK:
        raise _error(answers[0], call)
