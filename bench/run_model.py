"""Plans, and what a run of one has to print: a reckoning that knows nothing of the program's code.

A printed history is replayed entry by entry: each has to be allowed where it stands, with exactly the changes that its kind has
there. Whoever owns the all-projects lock then has to own alone. At the end no worker may own a lock, have a lease, be blocked or
have parked a lock. The events of worker processes
are replayed beside it, and the results are worked out from the outcomes that the history closes its units with.
"""

import dataclasses
import hashlib
import re
from collections.abc import Iterator

FILES = {"a.txt": b"one\ntwo\nthree\n", "b.txt": b"a single line of nine words and no more\n", "empty.txt": b""}
PASSING = ("number", "digest")
PHRASES = {"missing": "not there", "too-long": "too long", "fault": "fault", "no-memory": "no memory"}
MOST_IDLE = 8
REPLY_ACTIONS = {"lines": 1, "words": 2, "bytes": 3, "longest": 4, "count": 5, "sha256": 6}


class Wrong(Exception):
    """What a run printed is not what it has to be."""


def need(holds: bool, what: str) -> None:
    if not holds:
        raise Wrong(what)


@dataclasses.dataclass(frozen=True)
class Asked:
    """What an item asks of its worker process."""

    heap: int = 512
    args: tuple[str, ...] = ()

    def covers(self, other: "Asked") -> bool:
        return self.heap >= other.heap and set(other.args) <= set(self.args)


@dataclasses.dataclass(frozen=True)
class Item:
    do: str
    file: str
    asked: Asked | None = None

    def value(self) -> str:
        """What the item gives where nothing fails, as a history spells it."""
        bytes_of = FILES.get(self.file)
        if bytes_of is None:
            return "missing"
        if self.do == "sha256":
            return "digest " + hashlib.sha256(bytes_of).hexdigest()
        counts = {
            "lines": bytes_of.count(b"\n"),
            "words": len(bytes_of.split()),
            "bytes": len(bytes_of),
            "fetch": len(bytes_of),
            "longest": max(len(line) for line in bytes_of.split(b"\n")),
        }
        return f"number {counts[self.do]}"


@dataclasses.dataclass(frozen=True)
class Action:
    wait: str
    fetch: str | None
    items: tuple[Item, ...]


@dataclasses.dataclass(frozen=True)
class Task:
    project: int
    after: tuple[int, ...]
    actions: tuple[Action, ...]
    all_projects: bool = False


@dataclasses.dataclass
class Unit:
    """A unit with its place in the plan."""

    number: int
    task: int
    action: int
    work: Item

    @property
    def is_fetch(self) -> bool:
        return self.work.do == "fetch"


@dataclasses.dataclass
class Plan:
    projects: int
    sets: list[Asked]
    tasks: list[Task]

    def __post_init__(self) -> None:
        """Numbers actions and units through all tasks."""
        self.units: list[Unit] = []
        self.actions: list[tuple[int, Action, list[int]]] = []
        for number, task in enumerate(self.tasks):
            for action in task.actions:
                fetched = [Item("fetch", action.fetch)] if action.fetch else []
                first = len(self.units)
                for place, work in enumerate([*fetched, *action.items]):
                    self.units.append(Unit(first + place, number, len(self.actions), work))
                self.actions.append((number, action, list(range(first, len(self.units)))))

    def actions_of(self, task: int) -> list[int]:
        return [place for place, (owner, _, _) in enumerate(self.actions) if owner == task]

    def units_of(self, task: int) -> list[int]:
        return [unit.number for unit in self.units if unit.task == task]

    def project_locks(self, parallel: bool) -> int:
        """How many locks the projects have. The all-projects lock is the next one."""
        return self.projects if parallel else min(1, self.projects)

    def text(self) -> str:
        lines = [f'[[project]]\nname = "p{number}"\n' for number in range(self.projects)]
        for number, asked in enumerate(self.sets):
            args = ", ".join(f'"{arg}"' for arg in asked.args)
            lines.append(f'[[requirements]]\nname = "r{number}"\nheap_mb = {asked.heap}\nargs = [{args}]\n')
        for number, task in enumerate(self.tasks):
            after = ", ".join(f'"t{other}"' for other in task.after)
            lines.append(f'[[task]]\nname = "t{number}"\nproject = "p{task.project}"\nafter = [{after}]\n')
            lines.append("all_projects = true\n" if task.all_projects else "")
            lines += [self.action_text(action) for action in task.actions]
        return "\n".join(lines)

    def action_text(self, action: Action) -> str:
        lines = [f'[[task.action]]\nwait = "{action.wait}"\n']
        if action.fetch:
            lines.append(f'fetch = "{action.fetch}"\n')
        for item in action.items:
            lines.append(f'[[task.action.item]]\ndo = "{item.do}"\nfile = "{item.file}"\n')
            if item.asked is not None:
                lines.append('isolation = "process"\n')
                lines.append(f'requirements = "r{self.sets.index(item.asked)}"\n' if item.asked in self.sets else "")
        return "".join(lines)


class State:
    """Locks, leases and marks of a run, changed by one entry of its history after another."""

    def __init__(self, plan: Plan, workers: int, most: int, parallel: bool) -> None:
        self.plan, self.workers, self.most = plan, workers, most
        self.all_lock = plan.project_locks(parallel)
        own = [task.project if parallel else 0 for task in plan.tasks]
        self.locks = [self.all_lock if task.all_projects else lock for task, lock in zip(plan.tasks, own)]
        self.owner: dict[int, int] = {}
        self.leases: set[int] = set()
        self.blocked: set[int] = set()
        self.parked: dict[int, list[int]] = {worker: [] for worker in range(workers)}
        counts = {"task": len(plan.tasks), "action": len(plan.actions), "unit": len(plan.units)}
        self.marks = {(kind, number): "waiting" for kind, count in counts.items() for number in range(count)}
        self.outcomes: dict[int, str] = {}
        # The units that ended, in order, each with its worker.
        self.order: list[tuple[int, int]] = []

    def is_running(self, worker: int, kind: str = "") -> bool:
        running = f"running {worker}"
        return any(mark == running and key[0].startswith(kind) for key, mark in self.marks.items())

    def is_idle(self, worker: int) -> bool:
        has_lock = worker in self.owner.values()
        return not (worker in self.blocked or worker in self.leases or has_lock or self.is_running(worker))

    def works_on(self, worker: int, task: int) -> bool:
        """The task is this worker's, which has a lease and has not parked."""
        own = self.marks["task", task] == f"running {worker}"
        return own and worker in self.leases and not self.is_running(worker, "action")

    def earlier_passed(self, action: int) -> bool:
        task = self.plan.actions[action][0]
        earlier = [other for other in self.plan.actions_of(task) if other < action]
        units = [unit for other in earlier for unit in self.plan.actions[other][2]]
        return self.are("action", earlier, "passed") and self.are("unit", units, "passed")

    def are(self, kind: str, numbers: list[int], *marks: str) -> bool:
        return all(self.marks[kind, number] in marks for number in numbers)

    def move(self, kind: str, number: int, worker: int, mark: str) -> str:
        """Moves a mark, and gives the change as the history spells it."""
        old = self.marks[kind, number]
        self.marks[kind, number] = f"running {worker}" if mark == "running" else mark
        return f"{kind} {number} {old.split()[0]} {mark}"

    def is_kept_from(self, worker: int, lock: int) -> bool:
        """Another worker owns the lock, or one of the two is the all-projects lock."""
        others = [owned for owned, owner in self.owner.items() if owner != worker]
        return any(lock == owned or self.all_lock in (lock, owned) for owned in others)

    def need_all_alone(self) -> None:
        alone = self.owner.get(self.all_lock)
        need(alone is None or set(self.owner.values()) == {alone}, f"worker {alone} owns the all-projects lock, but not alone")

    def lock(self, worker: int, lock: int) -> str:
        free = lock not in self.owner and lock not in self.parked[worker] and not self.is_kept_from(worker, lock)
        need(free, f"lock {lock} can't be taken")
        self.owner[lock] = worker
        return f"lock {lock}"

    def unlock(self, worker: int, lock: int) -> str:
        need(self.owner.get(lock) == worker, f"lock {lock} isn't worker {worker}'s")
        del self.owner[lock]
        return f"unlock {lock}"

    def take(self, worker: int) -> str:
        free = worker not in self.leases and worker not in self.blocked and len(self.leases) < self.most
        need(free, f"worker {worker} can't take a lease")
        self.leases.add(worker)
        return "take"

    def give(self, worker: int) -> str:
        need(worker in self.leases, f"worker {worker} has no lease")
        self.leases.remove(worker)
        return "give"

    def park(self, worker: int, lock: int) -> str:
        self.parked[worker].append(lock)
        return f"park {lock}"

    def unpark(self, worker: int, lock: int) -> str:
        need(self.parked[worker][-1:] == [lock], f"lock {lock} isn't the last that worker {worker} parked")
        self.parked[worker].pop()
        return f"unpark {lock}"

    def skip_all(self, worker: int, actions: list[int]) -> list[str]:
        changes = []
        for action in actions:
            changes.append(self.move("action", action, worker, "skipped"))
            changes += [self.move("unit", unit, worker, "skipped") for unit in self.plan.actions[action][2]]
        return changes

    def start(self, worker: int, task: int) -> list[str]:
        ready = self.marks["task", task] == "waiting" and self.are("task", list(self.plan.tasks[task].after), "passed")
        need(ready and self.is_idle(worker), "it can't start")
        return [self.lock(worker, self.locks[task]), self.take(worker), self.move("task", task, worker, "running")]

    def skip(self, worker: int, task: int) -> list[str]:
        lost = any(self.marks["task", other] in ("failed", "skipped") for other in self.plan.tasks[task].after)
        need(lost and self.marks["task", task] == "waiting" and self.is_idle(worker), "it can't be skipped")
        return [self.move("task", task, worker, "skipped"), *self.skip_all(worker, self.plan.actions_of(task))]

    def submit(self, worker: int, action: int) -> list[str]:
        task, _, units = self.plan.actions[action]
        fetched = [unit for unit in units if self.plan.units[unit].is_fetch]
        ready = self.marks["action", action] == "waiting" and self.are("unit", fetched, "passed", "failed")
        need(ready and self.works_on(worker, task) and self.earlier_passed(action), "it can't be submitted")
        items = [unit for unit in units if unit not in fetched]
        return [self.move("action", action, worker, "queued"), *(self.move("unit", unit, worker, "queued") for unit in items)]

    def park_action(self, worker: int, action: int) -> list[str]:
        task, kind, _ = self.plan.actions[action]
        need(self.works_on(worker, task) and self.marks["action", action] == "queued", "it can't park")
        changes = [self.give(worker)]
        if kind.wait != "retain":
            changes += [self.unlock(worker, self.locks[task]), self.park(worker, self.locks[task])]
        return [*changes, self.move("action", action, worker, "running")]

    def resume(self, worker: int, action: int) -> list[str]:
        task, kind, units = self.plan.actions[action]
        mine = self.marks["action", action] == f"running {worker}" and worker not in self.leases
        need(mine and not self.is_running(worker, "unit"), "it isn't parked")
        need(self.are("unit", units, "passed", "failed"), "its items haven't ended")
        changes = []
        if kind.wait != "retain":
            changes.append(self.unpark(worker, self.locks[task]))
        if kind.wait == "release_and_reacquire":
            changes.append(self.lock(worker, self.locks[task]))
        if kind.wait != "release":
            changes.append(self.take(worker))
        return [*changes, self.move("action", action, worker, "passed")]

    def claim(self, worker: int, unit: int) -> list[str]:
        free = not self.is_running(worker, "unit") and worker not in self.blocked and worker not in self.leases
        able = self.is_running(worker, "action") or self.is_idle(worker)
        need(free and able and self.marks["unit", unit] == "queued", "it can't be claimed")
        return [self.take(worker), self.move("unit", unit, worker, "running")]

    def close(self, worker: int, unit: int, outcome: str) -> list[str]:
        need(self.marks["unit", unit] == f"running {worker}" and not self.plan.units[unit].is_fetch, "it can't be closed")
        return [self.move("unit", unit, worker, self.ended(worker, unit, outcome)), self.give(worker)]

    def ended(self, worker: int, unit: int, outcome: str) -> str:
        need(unit not in self.outcomes, "the unit has ended before")
        self.outcomes[unit] = outcome
        self.order.append((unit, worker))
        return "passed" if outcome.split()[0] in PASSING else "failed"

    def block(self, worker: int, unit: int) -> list[str]:
        place = self.plan.units[unit]
        ready = self.marks["unit", unit] == "waiting" and self.marks["action", place.action] == "waiting"
        need(place.is_fetch and ready and self.works_on(worker, place.task), "it can't be fetched")
        need(self.earlier_passed(place.action), "an earlier action hasn't passed")
        changes = [self.move("unit", unit, worker, "running"), self.give(worker)]
        for lock in sorted(lock for lock, owner in self.owner.items() if owner == worker):
            changes += [self.unlock(worker, lock), self.park(worker, lock)]
        self.blocked.add(worker)
        return [*changes, "enter"]

    def unblock(self, worker: int, unit: int, outcome: str) -> list[str]:
        need(worker in self.blocked and self.marks["unit", unit] == f"running {worker}", "it isn't being fetched")
        self.blocked.remove(worker)
        changes = ["leave"]
        for lock in reversed(list(self.parked[worker])):
            changes += [self.unpark(worker, lock), self.lock(worker, lock)]
        return [*changes, self.take(worker), self.move("unit", unit, worker, self.ended(worker, unit, outcome))]

    def end(self, worker: int, task: int) -> list[str]:
        free = worker not in self.blocked and not self.is_running(worker, "action") and not self.is_running(worker, "unit")
        need(free and self.marks["task", task] == f"running {worker}", "it can't end")
        actions, units = self.plan.actions_of(task), self.plan.units_of(task)
        waiting = [action for action in actions if self.marks["action", action] == "waiting"]
        need(self.are("action", actions, "passed", "waiting"), "an action hasn't ended")
        need(not waiting or not self.earlier_passed(waiting[0]), "an action could have begun")
        mark = "passed" if self.are("unit", units, "passed") else "failed"
        changes = [*self.skip_all(worker, waiting), self.move("task", task, worker, mark)]
        return changes + ([self.unlock(worker, self.locks[task]), self.give(worker)] if worker in self.leases else [])

    def is_empty_handed(self) -> bool:
        held = self.owner or self.leases or self.blocked or any(self.parked.values())
        return not held and all(mark in ("passed", "failed", "skipped") for mark in self.marks.values())


ENTRY = re.compile(r"(\d+) w(\d+) (\w+) (\d+)(?: ([^|]+))? \| (.+)")


def opening(plan: Plan, lines: list[str]) -> State:
    """The state before the first entry, by the two lines of the head. In version 2 they name the number of locks."""
    head = re.fullmatch(r"workers (\d+) max (\d+) parallel (yes|no)(?: locks (\d+))?", lines[1])
    version = {"history 1": 1, "history 2": 2}.get(lines[0])
    need(version is not None and head is not None, f"the history begins with {lines[:2]}")
    need((head[4] is None) == (version == 1), f"version {version} has another head: {lines[1]}")
    state = State(plan, int(head[1]), int(head[2]), head[3] == "yes")
    need(head[4] is None or int(head[4]) == state.all_lock + 1, f"there are {state.all_lock + 1} locks: {lines[1]}")
    return state


def replay(plan: Plan, lines: list[str]) -> State:
    """The state that a printed history leads to. Each entry has to be allowed, and the last state empty-handed."""
    state = opening(plan, lines)
    for number, line in enumerate(lines[2:-1], 1):
        found = ENTRY.fullmatch(line)
        need(found is not None and int(found[1]) == number, f"no entry {number}: {line}")
        worker, kind, at, outcome, changes = int(found[2]), found[3], int(found[4]), found[5], found[6]
        need(worker < state.workers, f"no such worker: {line}")
        if changes == "failed":
            continue
        rule = {"park": state.park_action}.get(kind) or getattr(state, kind)
        try:
            made = rule(worker, at, outcome) if kind in ("close", "unblock") else rule(worker, at)
        except Wrong as wrong:
            raise Wrong(f"{wrong}: {line}") from None
        need(", ".join(made) == changes, f"{line}: its changes are {made}")
        state.need_all_alone()
    need(lines[-1] == f"end {len(lines) - 3}", f"the history ends with {lines[-1]}")
    need(state.is_empty_handed(), "the last state isn't empty-handed")
    return state


def results(state: State) -> Iterator[str]:
    """The lines of the results."""
    plan, numbers = state.plan, []
    for number in range(len(plan.tasks)):
        yield f"task t{number} {state.marks['task', number]}"
        for unit in plan.units_of(number):
            outcome = state.outcomes.get(unit, "skipped")
            numbers += [int(outcome.split()[1])] if outcome.startswith("number") else []
            value = outcome.split()[1] if outcome.split()[0] in PASSING else PHRASES.get(outcome, outcome)
            yield f"  {plan.units[unit].work.do} {plan.units[unit].work.file} {value}"
    for kind in ("task", "unit"):
        marks = [mark for key, mark in state.marks.items() if key[0] == kind]
        counts = ", ".join(f"{marks.count(mark)} {mark}" for mark in ("passed", "failed", "skipped"))
        yield f"{kind}s: {counts}"
    yield f"total: {sum(numbers)}"


def check_events(state: State, events: list[str]) -> None:
    """Each event is legal, no daemon is left, and what happened to a unit's daemon fits its outcome."""
    allowed = {"started": [""], "reserved": ["started", "released"], "released": ["reserved"], "failed": ["reserved"], "stopped": ["released"]}
    last: dict[int, str] = {}
    serves: dict[int, int] = {}
    answered: dict[int, bool] = {}
    for event in events:
        found = re.fullmatch(r"daemon (\d+) (started heap \d+|reserved \d+|released|failed|stopped)", event)
        need(found is not None, f"no event: {event}")
        daemon, what = int(found[1]), found[2].split()[0]
        need(last.get(daemon, "") in allowed[what], f"{event!r} stands behind {last.get(daemon)!r}")
        need(what != "started" or daemon == len(last), f"{event!r}: another number")
        last[daemon] = what
        if what == "reserved":
            serves[daemon] = int(found[2].split()[1])
            need(serves[daemon] not in answered.keys(), f"{event!r}: twice for one unit")
            need(state.plan.units[serves[daemon]].work.asked is not None, f"{event!r}: it runs in a thread")
        if what in ("released", "failed"):
            answered[serves[daemon]] = what == "released"
    need(all(what in ("failed", "stopped") for what in last.values()), "a daemon is left")
    for unit, outcome in state.outcomes.items():
        if state.plan.units[unit].work.asked is not None:
            failed = outcome in ("fault", "no-memory")
            need(answered.get(unit, False) != failed, f"unit {unit} ended with {outcome}, and its daemon answered: {answered.get(unit)}")


class OneDesk:
    """What one thread's desk does with its calls, of which some fail, and the events and outcomes that come of it."""

    def __init__(self, failing: set[int], lies: set[int] = frozenset()) -> None:
        self.failing, self.lies = failing, lies
        self.calls = self.faults = self.started = 0
        self.idle: list[tuple[int, Asked]] = []
        self.events: list[str] = []

    def call(self, receives: bool = False) -> bool:
        """Whether the call passed."""
        failed = self.calls in self.failing or (receives and self.calls in self.lies)
        self.calls += 1
        self.faults += failed
        return not failed

    def stop(self) -> None:
        self.calls += 1

    def outcome(self, unit: Unit) -> str:
        asked = unit.work.asked
        passed = self.call() if asked is None else self.is_answered(unit.number, asked)
        return unit.work.value() if passed else "fault"

    def is_answered(self, unit: int, asked: Asked) -> bool:
        covering = [place for place, (_, has) in enumerate(self.idle) if has.covers(asked)]
        if covering:
            daemon = self.idle.pop(covering[-1])
        elif self.call():
            daemon = (self.started, asked)
            self.started += 1
            self.events.append(f"daemon {daemon[0]} started heap {asked.heap}")
        else:
            return False
        self.events.append(f"daemon {daemon[0]} reserved {unit}")
        answered = self.call() and self.call(receives=True)
        self.give_back(daemon, answered)
        return answered

    def give_back(self, daemon: tuple[int, Asked], answered: bool) -> None:
        self.events.append(f"daemon {daemon[0]} {'released' if answered else 'failed'}")
        if not answered:
            self.stop()
            return
        self.idle.append(daemon)
        if len(self.idle) > MOST_IDLE:
            self.end(self.idle.pop(0))

    def end(self, daemon: tuple[int, Asked]) -> None:
        self.events.append(f"daemon {daemon[0]} stopped")
        self.stop()

    def end_all(self) -> None:
        while self.idle:
            self.end(self.idle.pop(0))


def expect_of_one_desk(state: State, events: list[str], desk: OneDesk) -> None:
    """On one thread the history's order of units and the failing calls tell each outcome, each event and the count of faults."""
    for unit, _ in state.order:
        outcome = desk.outcome(state.plan.units[unit])
        need(state.outcomes[unit] == outcome, f"unit {unit} ended with {state.outcomes[unit]}, not {outcome}")
    desk.end_all()
    need(events == desk.events, f"the events are {events}, not {desk.events}")
