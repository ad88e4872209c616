"""Each call in each state of a plan's worker, by the table of wakhurmi.h. The calls are those of the library itself, without the module's classes."""

import ctypes
import re
import unittest
from typing import Callable, Dict, List, Set

from test_wakhurmi import HEADER

from wakhurmi import Outcome, _native

library = _native._library
OK, BUSY, STOPPED, BAD_NUMBER, MISUSED = 0, 1, 3, 6, 7
ITEM, FETCH, TASK, ACTION, ENDED = range(5)
RETAIN, RELEASE = 0, 1
UNTOUCHED = 77


def table() -> Dict[str, Set[str]]:
    """What the header says: behind what a worker may make which calls."""
    rows: Dict[str, Set[str]] = {}
    for behind, calls in re.findall(r"^ \*   behind (.*?) {2,}(wakhurmi_.*)$", HEADER.read_text(), re.M):
        for state in re.split(r", or |, | or ", behind):
            rows[state] = set(calls.split(", "))
    return rows


def rest() -> Set[str]:
    """The calls of which the header says that they answer MISUSED on a service over a plan."""
    text = " ".join(HEADER.read_text().replace("\n * ", " ").split())
    found = re.search(r"as without a plan\. ([\w, ]+) answer MISUSED on a service over a plan", text)
    assert found is not None
    return set(re.findall(r"wakhurmi_\w+", found[1]))


class Driven:
    """A service over a plan of two tasks, whose first worker comes to some state. The first task has a fetch with two items, and an item behind which its
    lock is given back. The second comes after it."""

    def __init__(self, leases: int = 2) -> None:
        plan, self.pointer, number = ctypes.c_void_p(), ctypes.c_void_p(), ctypes.c_uint32()
        self.work = _native._Work()
        self.demand(library.wakhurmi_make_plan(2, ctypes.byref(plan)))
        self.demand(library.wakhurmi_plan_task(plan, 0, ctypes.byref(number)))
        self.demand(library.wakhurmi_plan_action(plan, 0, RETAIN, 2, True))
        self.demand(library.wakhurmi_plan_action(plan, 0, RELEASE, 1, False))
        self.demand(library.wakhurmi_plan_task(plan, 1, ctypes.byref(number)))
        self.demand(library.wakhurmi_plan_after(plan, 1, (ctypes.c_uint32 * 1)(0), 1))
        self.demand(library.wakhurmi_open_plan(plan, 2, leases, ctypes.byref(self.pointer)))
        library.wakhurmi_close_plan(plan)

    @staticmethod
    def demand(answer: int, wanted: int = OK) -> None:
        assert answer == wanted, (answer, wanted)

    def comes(self, what: int, worker: int = 0) -> None:
        self.demand(library.wakhurmi_next(self.pointer, worker, ctypes.byref(self.work)))
        assert self.work.what == what, self.work.what

    def is_busy(self, worker: int = 0) -> None:
        self.demand(library.wakhurmi_try_next(self.pointer, worker, ctypes.byref(self.work)), BUSY)

    def done(self, worker: int = 0) -> None:
        self.demand(library.wakhurmi_done(self.pointer, worker, True, 1))

    # ---- states, up to which each goes on from the one before

    def nothing(self) -> None:
        """It was opened."""

    def busy(self) -> None:
        self.comes(TASK, 1)
        self.is_busy()

    def stopped(self) -> None:
        self.demand(library.wakhurmi_stop(self.pointer))
        self.demand(library.wakhurmi_next(self.pointer, 0, ctypes.byref(self.work)), STOPPED)

    def task(self) -> None:
        self.comes(TASK)

    def in_section(self) -> None:
        self.task()
        self.demand(library.wakhurmi_enter(self.pointer, 0))

    def behind_section(self) -> None:
        self.in_section()
        self.demand(library.wakhurmi_leave(self.pointer, 0))

    def fetch(self) -> None:
        self.task()
        self.comes(FETCH)

    def behind_fetch(self) -> None:
        self.fetch()
        self.done()

    def item(self) -> None:
        self.behind_fetch()
        self.comes(ITEM)

    def behind_item(self) -> None:
        self.item()
        self.done()

    def busy_parked(self) -> None:
        """Another worker has the last item."""
        self.item()
        self.comes(ITEM, 1)
        self.done()
        self.is_busy()

    def behind_action(self) -> None:
        self.behind_item()
        self.comes(ITEM)
        self.done()
        self.comes(ACTION)

    def released(self) -> None:
        self.behind_action()
        self.comes(ITEM)
        self.done()
        self.comes(ACTION)

    def ended(self) -> None:
        self.released()
        self.comes(TASK)
        self.comes(ENDED)

    # ---- calls

    def answer(self, name: str) -> int:
        """What the first worker's call answers. It has to leave what it may write to where it doesn't answer OK."""
        arguments: Dict[str, tuple] = {
            "wakhurmi_take": (None, 0),
            "wakhurmi_take_until": (None, 0, ctypes.byref(_native._Time())),
            "wakhurmi_try_take": (None, 0),
            "wakhurmi_take_uses": (None, 0),
            "wakhurmi_take_uses_until": (None, 0, ctypes.byref(_native._Time())),
            "wakhurmi_try_take_uses": (None, 0),
            "wakhurmi_leave_until": (ctypes.byref(_native._Time()),),
            "wakhurmi_done": (True, 1),
            "wakhurmi_done_next": (True, 1),
        }
        if name == "wakhurmi_take_history":
            return int(library.wakhurmi_take_history(self.pointer, ctypes.byref(ctypes.c_void_p())))
        words = arguments.get(name, ())
        if name in ("wakhurmi_next", "wakhurmi_try_next", "wakhurmi_done_next"):
            self.work.what = UNTOUCHED
            words = (*words, ctypes.byref(self.work))
        return int(getattr(library, name)(self.pointer, 0, *words))

    def close(self) -> None:
        library.wakhurmi_close(self.pointer)


# By the header's words. Want of memory is tried in C.
STATES: Dict[str, List[Callable[[Driven], None]]] = {
    "nothing": [Driven.nothing],
    "ENDED": [Driven.ended],
    "wakhurmi_done of an item": [Driven.behind_item],
    "BUSY": [Driven.busy, Driven.busy_parked],
    "STOPPED": [Driven.stopped],
    "NO_MEMORY of wakhurmi_next": [],
    "TASK": [Driven.task],
    "ACTION with a lock": [Driven.behind_action],
    "wakhurmi_done of a fetch": [Driven.behind_fetch],
    "wakhurmi_leave": [Driven.behind_section],
    "ACTION of WAKHURMI_RELEASE": [Driven.released],
    "ITEM": [Driven.item],
    "FETCH": [Driven.fetch],
    "wakhurmi_enter": [Driven.in_section],
}


class StateTests(unittest.TestCase):
    def driven(self, drive: Callable[[Driven], None]) -> Driven:
        driven = Driven()
        self.addCleanup(driven.close)
        drive(driven)
        return driven

    def test_each_call_in_each_state_of_the_headers_table(self) -> None:
        rows, never = table(), rest()
        self.assertEqual(rows.keys(), STATES.keys())
        calls = set().union(*rows.values())
        self.assertEqual(len(calls), 6)
        self.assertEqual(len(never), 9)
        for state, may in rows.items():
            for drive in STATES[state]:
                with self.subTest(drive.__name__):
                    self.assert_may(drive, may, (calls | never) - may)

    def assert_may(self, drive: Callable[[Driven], None], may: Set[str], may_not: Set[str]) -> None:
        driven = self.driven(drive)
        for name in sorted(may_not):
            self.assertEqual(driven.answer(name), MISUSED, name)
            self.assertIn(driven.work.what, (UNTOUCHED, *range(6)), name)
            if name in ("wakhurmi_next", "wakhurmi_try_next", "wakhurmi_done_next"):
                self.assertEqual(driven.work.what, UNTOUCHED, name)
        for name in sorted(may):
            # Behind a stop no call waits.
            allowed = self.driven(drive)
            allowed.demand(library.wakhurmi_stop(allowed.pointer))
            self.assertIn(allowed.answer(name), (OK, STOPPED), name)

    def test_what_is_wrong_in_no_state_alone(self) -> None:
        driven = self.driven(Driven.item)
        for name in ("wakhurmi_next", "wakhurmi_try_next"):
            self.assertEqual(getattr(library, name)(driven.pointer, 2, ctypes.byref(driven.work)), BAD_NUMBER)
            self.assertEqual(getattr(library, name)(driven.pointer, 0, None), MISUSED)
            self.assertEqual(getattr(library, name)(None, 0, ctypes.byref(driven.work)), MISUSED)
        self.assertEqual(library.wakhurmi_done_next(driven.pointer, 0, True, 0, None), MISUSED)
        self.assertEqual(library.wakhurmi_done(driven.pointer, 2, True, 0), BAD_NUMBER)
        self.assertEqual(library.wakhurmi_open_plan(None, 1, 1, ctypes.byref(ctypes.c_void_p())), MISUSED)
        self.assertEqual(library.wakhurmi_make_plan(1, None), MISUSED)
        self.assertEqual(library.wakhurmi_run(None, 1, 1, None, None, ctypes.byref(ctypes.c_void_p())), MISUSED)
        library.wakhurmi_close_plan(None)
        driven.done()
        driven.demand(library.wakhurmi_finish(driven.pointer))
        for name in sorted(set().union(*table().values(), rest())):
            self.assertEqual(driven.answer(name), MISUSED, name)
        outcome = ctypes.c_uint()
        self.assertEqual(library.wakhurmi_task_outcome(driven.pointer, 0, None), MISUSED)
        self.assertEqual(library.wakhurmi_item_outcome(driven.pointer, 0, 0, 0, None, None), MISUSED)
        self.assertEqual(library.wakhurmi_item_outcome(driven.pointer, 0, 0, 0, ctypes.byref(outcome), None), OK)
        self.assertEqual(outcome.value, Outcome.PASSED)


if __name__ == "__main__":
    unittest.main()
