#!/usr/bin/env python3
"""Replays histories of plans from standard input, and says where one breaks a rule.

Each stands behind a line of JSON with its plan: `{"locks": 2, "tasks": [{"lock": 0, "after": [], "actions": [{"retention": "retain", "items": 3, "fetch":
false}]}]}`. The lock of all projects has the number of the locks. Each entry has to be the one that the rules give its worker in the state
in which it stands, with the changes that it makes there; but a blocking section may stand wherever a task's worker has a lease, and how a unit ends
is its worker's to say. At the end all tasks have ended, and nobody has anything.

With --toml FOLDER each plan is also written as one for `leases check`, beside its history.
"""

from __future__ import annotations

import argparse
import dataclasses
import json
import pathlib
import re
import sys
from typing import Any, Dict, Iterator, List, Optional, Tuple

WAITING, QUEUED, RUNNING, PASSED, FAILED, SKIPPED = "waiting", "queued", "running", "passed", "failed", "skipped"


class Broken(Exception):
    pass


def demand(holds: bool, what: str) -> None:
    if not holds:
        raise Broken(what)


@dataclasses.dataclass
class Action:
    task: int
    retention: str
    units: range
    fetch: Optional[int]

    @property
    def items(self) -> range:
        return self.units if self.fetch is None else self.units[1:]


@dataclasses.dataclass
class Worker:
    """What it has. `blocked` is a section, `lock` the one that it owns, `parked` the one that it gave up for a while."""

    task: Optional[int] = None
    action: Optional[int] = None
    unit: Optional[int] = None
    leased: bool = False
    blocked: bool = False
    lock: Optional[int] = None
    parked: Optional[int] = None


class State:
    def __init__(self, plan: Dict[str, Any], workers: int, most: int) -> None:
        self.all_projects, self.most = plan["locks"], most
        self.locks = [task["lock"] for task in plan["tasks"]]
        self.after = [task["after"] for task in plan["tasks"]]
        self.actions: List[Action] = []
        self.actions_of: List[range] = []
        units = 0
        for number, task in enumerate(plan["tasks"]):
            first = len(self.actions)
            for action in task["actions"]:
                count = action["items"] + action["fetch"]
                self.actions.append(Action(number, action["retention"], range(units, units + count), units if action["fetch"] else None))
                units += count
            self.actions_of.append(range(first, len(self.actions)))
        self.marks = {"task": [WAITING] * len(self.locks), "action": [WAITING] * len(self.actions), "unit": [WAITING] * units}
        self.workers = [Worker() for _ in range(workers)]
        self.changes: List[str] = []

    # ---- what the rules ask

    def lease_is_free(self) -> bool:
        return sum(worker.leased for worker in self.workers) < self.most

    def lock_is_free(self, lock: Optional[int]) -> bool:
        owned = {worker.lock for worker in self.workers} - {None}
        return not owned if lock == self.all_projects else lock is None or not owned & {lock, self.all_projects}

    def lowest_queued(self) -> Optional[int]:
        return next((unit for unit, mark in enumerate(self.marks["unit"]) if mark == QUEUED), None) if self.lease_is_free() else None

    def has_passed(self, action: int) -> bool:
        return all(self.marks["unit"][unit] == PASSED for unit in self.actions[action].units)

    def lowest_task(self, skips: bool) -> Optional[int]:
        for task, mark in enumerate(self.marks["task"]):
            before = [self.marks["task"][other] for other in self.after[task]]
            if mark == WAITING and skips and any(other in (FAILED, SKIPPED) for other in before):
                return task
            if mark == WAITING and not skips and all(other == PASSED for other in before) and self.lock_is_free(self.locks[task]):
                return task
        return None

    def next_of_idle(self) -> str:
        unit, skipped = self.lowest_queued(), self.lowest_task(True)
        if unit is not None:
            return f"claim {unit}"
        if skipped is not None:
            return f"skip {skipped}"
        started = self.lowest_task(False) if self.lease_is_free() else None
        return "nothing" if started is None else f"start {started}"

    def next_of_parked(self, worker: Worker) -> str:
        assert worker.action is not None
        action = self.actions[worker.action]
        is_over = all(self.marks["unit"][unit] in (PASSED, FAILED) for unit in action.items)
        can_take = action.retention == "release" or (self.lease_is_free() and self.lock_is_free(worker.parked))
        unit = self.lowest_queued()
        if is_over and can_take:
            return f"resume {worker.action}"
        return "nothing" if unit is None else f"claim {unit}"

    def next_of_task(self, worker: Worker) -> str:
        assert worker.task is not None
        for number in self.actions_of[worker.task]:
            action, mark = self.actions[number], self.marks["action"][number]
            if mark == QUEUED:
                return f"park {number}"
            if mark == WAITING and worker.leased:
                fetch = action.fetch is not None and self.marks["unit"][action.fetch] == WAITING
                return f"block {action.fetch}" if fetch else f"submit {number}"
            if not self.has_passed(number):
                break
        return f"end {worker.task}"

    def next_of(self, worker: Worker) -> List[str]:
        """The entries that may come, up to what their worker says of a unit."""
        if worker.blocked:
            return ["unblock -" if worker.unit is None else f"unblock {worker.unit}"]
        if worker.unit is not None:
            return [f"close {worker.unit}"]
        if worker.action is not None:
            return [self.next_of_parked(worker)]
        if worker.task is not None:
            return [self.next_of_task(worker), *(["block -"] if worker.leased else [])]
        return [self.next_of_idle()]

    # ---- changes

    def mark(self, sort: str, number: int, mark: str) -> None:
        self.changes.append(f"{sort} {number} {self.marks[sort][number]} {mark}")
        self.marks[sort][number] = mark

    def take(self, worker: Worker, lock: Optional[int]) -> None:
        demand(self.lease_is_free() and self.lock_is_free(lock), "a lease and the lock are free")
        self.changes += [f"lock {lock}", "take"] if lock is not None else ["take"]
        worker.leased = True
        worker.lock = worker.lock if lock is None else lock

    def give(self, worker: Worker) -> None:
        self.changes.append("give")
        worker.leased = False

    def park(self, worker: Worker, for_good: bool) -> None:
        if worker.lock is not None:
            self.changes += [f"unlock {worker.lock}", *([] if for_good else [f"park {worker.lock}"])]
            worker.lock, worker.parked = None, None if for_good else worker.lock

    def unpark(self, worker: Worker, takes: bool) -> None:
        lock, worker.parked = worker.parked, None
        if lock is not None:
            self.changes.append(f"unpark {lock}")
        if takes:
            self.take(worker, lock)

    def skip_rest(self, task: int) -> None:
        for action in self.actions_of[task]:
            if self.marks["action"][action] == WAITING:
                self.mark("action", action, SKIPPED)
                for unit in self.actions[action].units:
                    if self.marks["unit"][unit] == WAITING:
                        self.mark("unit", unit, SKIPPED)

    def on_start(self, worker: Worker, task: int, _: str) -> None:
        self.take(worker, self.locks[task])
        worker.task = task
        self.mark("task", task, RUNNING)

    def on_skip(self, _: Worker, task: int, __: str) -> None:
        self.mark("task", task, SKIPPED)
        self.skip_rest(task)

    def on_block(self, worker: Worker, unit: int, _: str) -> None:
        if unit >= 0:
            worker.unit = unit
            self.mark("unit", unit, RUNNING)
        self.give(worker)
        self.park(worker, False)
        self.changes.append("enter")
        worker.blocked = True

    def on_unblock(self, worker: Worker, unit: int, outcome: str) -> None:
        self.changes.append("leave")
        worker.blocked = False
        self.unpark(worker, True)
        if unit >= 0:
            worker.unit = None
            self.mark("unit", unit, PASSED if outcome.startswith("number ") else FAILED)

    def on_submit(self, _: Worker, action: int, __: str) -> None:
        self.mark("action", action, QUEUED)
        for unit in self.actions[action].items:
            self.mark("unit", unit, QUEUED)

    def on_park(self, worker: Worker, action: int, _: str) -> None:
        self.give(worker)
        if self.actions[action].retention != "retain":
            self.park(worker, False)
        worker.action = action
        self.mark("action", action, RUNNING)

    def on_claim(self, worker: Worker, unit: int, _: str) -> None:
        self.take(worker, None)
        worker.unit = unit
        self.mark("unit", unit, RUNNING)

    def on_close(self, worker: Worker, unit: int, outcome: str) -> None:
        worker.unit = None
        self.mark("unit", unit, PASSED if outcome.startswith("number ") else FAILED)
        self.give(worker)

    def on_resume(self, worker: Worker, action: int, _: str) -> None:
        worker.action = None
        self.unpark(worker, self.actions[action].retention != "release")
        self.mark("action", action, PASSED)

    def on_end(self, worker: Worker, task: int, _: str) -> None:
        passed = all(self.has_passed(action) for action in self.actions_of[task])
        self.skip_rest(task)
        self.mark("task", task, PASSED if passed else FAILED)
        worker.task = None
        self.park(worker, True)
        if worker.leased:
            self.give(worker)

    def make(self, line: str) -> None:
        """Makes an entry's changes, which have to be those of its line."""
        found = re.fullmatch(r"w(\d+) ((\w+) (-|\d+))( \w.*)? \| (.*)", line)
        demand(found is not None and int(found[1]) < len(self.workers), "it has another form")
        assert found is not None
        worker = self.workers[int(found[1])]
        may = self.next_of(worker)
        demand(found[2] in may, f"next is {' or '.join(may)}")
        self.changes = []
        getattr(self, "on_" + found[3])(worker, -1 if found[4] == "-" else int(found[4]), (found[5] or "").strip())
        demand(found[6] == ", ".join(self.changes), f"it makes {', '.join(self.changes)}")

    def demand_the_end(self) -> None:
        demand(all(mark in (PASSED, FAILED, SKIPPED) for mark in self.marks["task"]), "a task hasn't ended")
        demand(all(worker == Worker() for worker in self.workers), "somebody has something at the end")


def histories(lines: List[str]) -> Iterator[Tuple[Dict[str, Any], List[str]]]:
    begin = 0
    for number, line in enumerate(lines):
        if line.startswith("end "):
            yield json.loads(lines[begin]), lines[begin + 1 : number + 1]
            begin = number + 1
    demand(begin == len(lines), "the end is missing")


def replay(plan: Dict[str, Any], lines: List[str]) -> int:
    demand(lines[0] == "history 2", "no history stands there")
    head = re.fullmatch(r"workers (\d+) max (\d+) parallel yes locks (\d+)", lines[1])
    demand(head is not None and int(head[3]) == plan["locks"] + 1, "the second line isn't a head")
    assert head is not None
    state = State(plan, int(head[1]), int(head[2]))
    for number, line in enumerate(lines[2:-1], 1):
        counted, _, entry = line.partition(" ")
        demand(counted == str(number), f"entry {number} has another number")
        try:
            state.make(entry)
        except Broken as broken:
            raise Broken(f"entry {number}, {entry}: {broken}") from None
    demand(lines[-1] == f"end {len(lines) - 3}", "the end is another")
    state.demand_the_end()
    return len(lines) - 3


def toml_of(plan: Dict[str, Any]) -> str:
    """A plan for `leases check`, whose units ask for the bytes of any file."""
    text = [f'[[project]]\nname = "p{lock}"\n' for lock in range(plan["locks"])]
    for number, task in enumerate(plan["tasks"]):
        is_all = task["lock"] == plan["locks"]
        after = ", ".join(f'"t{other}"' for other in sorted(set(task["after"])))
        text.append(f'[[task]]\nname = "t{number}"\nproject = "p{0 if is_all else task["lock"]}"\nall_projects = {str(is_all).lower()}\nafter = [{after}]\n')
        for action in task["actions"]:
            items = ", ".join(['{ do = "bytes", file = "a" }'] * action["items"])
            fetch = 'fetch = "a"\n' if action["fetch"] else ""
            text.append(f'[[task.action]]\nwait = "{action["retention"]}"\n{fetch}item = [{items}]\n')
    return "\n".join(text)


def main() -> None:
    words = argparse.ArgumentParser()
    words.add_argument("--toml", type=pathlib.Path, metavar="FOLDER")
    folder: Optional[pathlib.Path] = words.parse_args().toml
    count = entries = 0
    try:
        for plan, lines in histories(sys.stdin.read().splitlines()):
            entries += replay(plan, lines)
            if folder is not None:
                (folder / f"{count}.toml").write_text(toml_of(plan))
                (folder / f"{count}.txt").write_text("\n".join(lines) + "\n")
            count += 1
    except Broken as broken:
        sys.exit(f"history {count}: not lawful: {broken}")
    print(f"{count} histories, {entries} entries: lawful")


if __name__ == "__main__":
    main()
