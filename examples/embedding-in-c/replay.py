#!/usr/bin/env python3
"""Replays a printed history without tasks from standard input, and says where it breaks a rule.

Each worker has one lease at most and at most so many are out; a lock has one owner; who is in a blocking section has nothing,
and takes the locks again that it parked there, the last one first. At the end nobody has anything.

With --all-projects the last lock is the all-projects lock: while a worker owns it no other worker owns a lock.
"""

import re
import sys


class Broken(Exception):
    pass


def demand(holds: bool, what: str) -> None:
    if not holds:
        raise Broken(what)


class State:
    def __init__(self, workers: int, most: int, locks: int, has_all: bool) -> None:
        self.workers, self.most, self.locks = workers, most, locks
        self.all_projects = locks - 1 if has_all else None
        self.leased: set[int] = set()
        self.blocked: set[int] = set()
        self.owners: dict[int, int] = {}
        self.parked: dict[int, list[int]] = {}

    def make(self, worker: int, change: str) -> None:
        word, *numbers = change.split()
        getattr(self, "on_" + word)(worker, *map(int, numbers))

    def on_lock(self, worker: int, lock: int) -> None:
        demand(lock < self.locks, f"there is no lock {lock}")
        demand(lock not in self.owners and worker not in self.blocked, f"lock {lock} is taken")
        others = [own for own, owner in self.owners.items() if owner != worker]
        demand(self.all_projects not in (lock, *others) or not others, "the all-projects lock is taken beside another's lock")
        self.owners[lock] = worker

    def on_unlock(self, worker: int, lock: int) -> None:
        demand(self.owners.get(lock) == worker, f"lock {lock} isn't worker {worker}'s")
        del self.owners[lock]

    def on_take(self, worker: int) -> None:
        demand(worker not in self.leased and worker not in self.blocked, f"worker {worker} may take no lease")
        self.leased.add(worker)
        demand(len(self.leased) <= self.most, "too many leases are out")

    def on_give(self, worker: int) -> None:
        demand(worker in self.leased, f"worker {worker} has no lease")
        self.leased.remove(worker)

    def on_park(self, worker: int, lock: int) -> None:
        demand(lock not in self.owners or self.owners[lock] != worker, f"lock {lock} is still worker {worker}'s")
        self.parked.setdefault(worker, []).append(lock)

    def on_unpark(self, worker: int, lock: int) -> None:
        demand(bool(self.parked.get(worker)) and self.parked[worker].pop() == lock, f"lock {lock} isn't the last parked one")

    def on_enter(self, worker: int) -> None:
        demand(worker not in self.leased and worker not in self.owners.values(), f"worker {worker} has something in its section")
        self.blocked.add(worker)

    def on_leave(self, worker: int) -> None:
        demand(worker in self.blocked, f"worker {worker} is in no section")
        self.blocked.remove(worker)

    def is_at_rest(self) -> bool:
        return not (self.leased or self.blocked or self.owners or any(self.parked.values()))


def replay(lines: list[str], has_all: bool) -> int:
    demand(lines[0] == "history 2", "no history stands there")
    head = re.fullmatch(r"workers (\d+) max (\d+) parallel yes locks (\d+)", lines[1])
    demand(head is not None, "the second line isn't a head")
    state = State(*map(int, head.groups()), has_all)
    for number, line in enumerate(lines[2:-1], 1):
        entry = re.fullmatch(r"(\d+) w(\d+) (acquire|handback|block -|unblock -) \| (.*)", line)
        demand(entry is not None and int(entry[1]) == number, f"entry {number} has another form")
        demand(int(entry[2]) < state.workers, f"entry {number} is no worker's")
        if entry[4] not in ("failed", "nothing"):
            for change in entry[4].split(", "):
                state.make(int(entry[2]), change)
    demand(lines[-1] == f"end {len(lines) - 3}", "the end is missing")
    demand(state.is_at_rest(), "somebody has something at the end")
    return len(lines) - 3


try:
    print("lawful", replay(sys.stdin.read().splitlines(), "--all-projects" in sys.argv[1:]))
except Broken as broken:
    sys.exit(f"not lawful: {broken}")
