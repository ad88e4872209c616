#!/usr/bin/env python3
"""Runs plans in which some tasks ask for all projects, and replays what they printed.

Random plans that mix both kinds of tasks are run at 1 to 32 threads. A replay that knows nothing of the program's code
(`run_model.py`) judges each printed history: every entry has to be allowed, whoever owns the all-projects lock has to own alone, and
the results have to be those that the history and the plan give. They also have to be those of one thread, and the program's own
`check` has to find the history lawful. A second reading goes by the printed `lock` and `unlock` alone: it follows who owns what, and
knows no other rule. The seed is printed.

Then a plan with such a task in the middle of others that don't wait for one another is run many times, each run with a time limit.

First some histories are changed by hand, and each has to be refused by all that judge histories here. Where an older program is named,
the instructions of two plans without such tasks are counted last, by both programs. Not part of the gate.

    bench/all_projects.py [PROGRAM [PLANS [RUNS [SEED [OLDER PROGRAM]]]]]

Measured: 200 plans at 1 to 32 threads, 1,400 runs with 168,724 entries (seed 3105038732): all lawful by both readings and by `check`. Of 40
tasks whose number 20 asks for all projects, 20 had mostly started before it, and 39 at the most: it may come last. A chain of 2,048 tasks
takes 1.7 instructions in 100 more than by a program without that lock, and 2,048 tasks of 64 projects 1.4.
"""

import collections
import dataclasses
import pathlib
import random
import re
import sys
import tempfile
import time
from collections.abc import Callable

import measure
import run_model
import runs
import threads
from run_model import Action, Item, Plan, Task, Wrong, need

THREADS = [1, 2, 3, 5, 8, 16, 32]
MIDDLE = [1, 2, 8, 32]
FILES = ["a.txt", "a.txt", "a.txt", "b.txt", "b.txt", "empty.txt", "missing.txt"]
ACTIONS = ["lines", "words", "bytes", "longest", "sha256"]
WAITS = ["retain", "release_and_reacquire"]

# The goal: so many instructions in 100 more than an older program for plans without such tasks.
MOST_MORE = 3

OWNING = re.compile(r"(lock|unlock) (\d+)")


def random_action(draw: random.Random, is_last: bool) -> Action:
    wait = draw.choice(WAITS + ["release"] * is_last)
    fetch = draw.choice([None, None, None, "a.txt", "b.txt", "missing.txt"])
    return Action(wait, fetch, tuple(Item(draw.choice(ACTIONS), draw.choice(FILES)) for _ in range(draw.randint(1, 4))))


def random_plan(draw: random.Random) -> Plan:
    """A plan of up to 24 tasks, of which one in three, one in eight, or all but a few ask for all projects."""
    projects, share = draw.randint(1, 5), draw.choice([3, 3, 8, 8, 1])
    tasks = []
    for number in range(draw.randint(2, 24)):
        count = draw.randint(0, 3)
        actions = tuple(random_action(draw, place == count - 1) for place in range(count))
        after = tuple(sorted(draw.sample(range(number), min(number, draw.choice([0, 0, 0, 1, 2])))))
        tasks.append(Task(draw.randrange(projects), after, actions, draw.randrange(8) > 0 if share == 1 else draw.randrange(share) == 0))
    return Plan(projects, [], tasks)


def changes_of(line: str) -> list[str]:
    return line.split(" | ")[1].split(", ")


def worker_of(line: str) -> int:
    return int(line.split()[1].removeprefix("w"))


def need_alone(all_lock: int, lines: list[str]) -> collections.Counter[str]:
    """Follows who owns which lock by the printed changes alone. Says how often the lock was taken, and how often another lock."""
    owners: dict[int, int] = {}
    counts: collections.Counter[str] = collections.Counter()
    for line in lines[2:-1]:
        for found in filter(None, map(OWNING.fullmatch, changes_of(line))):
            lock = int(found[2])
            if found[1] == "unlock":
                owners.pop(lock, None)
                continue
            need(lock not in owners, f"two owners of lock {lock}: {line}")
            owners[lock] = worker_of(line)
            counts["all" if lock == all_lock else "own"] += 1
        alone = owners.get(all_lock)
        need(alone is None or len(set(owners.values())) == 1, f"worker {alone} owns the all-projects lock, but not alone: {line}")
    return counts


@dataclasses.dataclass
class Printed:
    """What a run printed."""

    status: int
    results: str
    history: list[str]


class Bench:
    def __init__(self, program: str, folder: pathlib.Path) -> None:
        self.program, self.folder = program, folder
        self.counts: collections.Counter[str] = collections.Counter()
        for name, content in run_model.FILES.items():
            (folder / name).write_bytes(content)

    def run(self, plan: Plan, *words: str) -> Printed:
        (self.folder / "plan.toml").write_text(plan.text())
        status, printed = threads.run(self.program, self.folder, "--history", *words)
        results, history = measure.split_history(printed.decode())
        return Printed(status, results, history.splitlines())

    def verdict(self, history: list[str]) -> str:
        """What `check` says of a history of the plan that was run last."""
        return threads.verdict(self.program, self.folder, "\n".join([*history, ""])).strip()

    def judge(self, plan: Plan, parallel: bool, printed: Printed, alone: Printed) -> None:
        """Raises Wrong where a run didn't print what it has to, or not what one thread printed."""
        state = run_model.replay(plan, printed.history)
        need(printed.results.splitlines() == list(run_model.results(state)), "the results aren't those of the history")
        need((printed.status, printed.results) == (alone.status, alone.results), "the results aren't those of one thread")
        self.counts += need_alone(plan.project_locks(parallel), printed.history)
        entries = len(printed.history) - 3
        verdict = self.verdict(printed.history)
        need(verdict == f"lawful {entries}", f"the history is found {verdict!r}")
        self.counts["entries"] += entries
        self.counts["runs"] += 1

    def judge_random_plans(self, seed: int, plans: int) -> None:
        draw = random.Random(seed)
        for number in range(plans):
            plan = random_plan(draw)
            alone = self.run(plan, "--threads", "1")
            for count in THREADS:
                words = ["--threads", str(count), "--max-workers", str(draw.randint(1, count))]
                parallel = draw.randrange(4) > 0
                words += ["--parallel"] * parallel
                printed = self.run(plan, *words)
                try:
                    self.judge(plan, parallel, printed, alone)
                except Wrong as wrong:
                    sys.exit(f"plan {number} of seed {seed} with {words}: {wrong}\n{plan.text()}\n" + "\n".join(printed.history))

    def run_middle(self, turns: int) -> None:
        """Runs a plan whose task in the middle asks for all projects. Says how many tasks had started when that task did."""
        plan = middle_plan()
        alone = self.run(plan, "--threads", "1")
        for count in MIDDLE:
            starts, begin = [], time.monotonic()
            for turn in range(turns):
                printed = self.run(plan, "--threads", str(count), "--max-workers", str(1 + (count - 1 - turn) % count), "--parallel")
                self.judge(plan, True, printed, alone)
                starts.append(tasks_started_before(printed.history, 20))
            each = (time.monotonic() - begin) / turns * 1000
            print(
                f"{turns} runs at {count} threads ended, {each:.0f} ms each with their replay; tasks of 40 that had started when number 20 did:"
                f" {min(starts)} to {max(starts)}, median {sorted(starts)[turns // 2]}"
            )


def middle_plan() -> Plan:
    """40 tasks of 20 projects, of which number 20 asks for all. Nothing comes after anything."""
    item = Item("lines", "a.txt")
    actions = (Action("release_and_reacquire", None, (item, item)), Action("retain", None, (item,)))
    return Plan(20, [], [Task(number % 20, (), actions, number == 20) for number in range(40)])


def tasks_started_before(history: list[str], task: int) -> int:
    starts = [line for line in history if re.match(rf"\d+ w\d+ start \d+ \| (?!failed)", line)]
    return next(place for place, line in enumerate(starts) if f" start {task} " in line)


# A history of two workers over two projects, of which worker 1's task asks for both.
PLAN_BY_HAND = Plan(2, [], [Task(0, (), ()), Task(1, (), (), all_projects=True)])
BY_HAND = """history 2
workers 2 max 2 parallel yes locks 3
1 w0 start 0 | lock 0, take, task 0 waiting running
2 w0 end 0 | task 0 running passed, unlock 0, give
3 w1 start 1 | lock 2, take, task 1 waiting running
4 w1 end 1 | task 1 running passed, unlock 2, give
end 4""".splitlines()


def swapped(lines: list[str], first: int, second: int) -> list[str]:
    """The lines with the entries of these numbers in each other's place."""
    bodies = {number: lines[number + 1].split(" ", 1)[1] for number in (first, second)}
    changed = list(lines)
    changed[first + 1], changed[second + 1] = f"{first} {bodies[second]}", f"{second} {bodies[first]}"
    return changed


def is_refused(judge: Callable[[], object]) -> bool:
    try:
        judge()
    except Wrong:
        return True
    return False


def refuse_changed_histories(bench: Bench) -> None:
    """All that judge histories here take this one, in each version that the program knows, and refuse each of its changes."""
    knows_second = bench.run(PLAN_BY_HAND, "--threads", "1").history[0] == "history 2"
    first_version = ["history 1", BY_HAND[1].removesuffix(" locks 3"), *BY_HAND[2:]]
    for base in [first_version, BY_HAND][: 1 + knows_second]:
        run_model.replay(PLAN_BY_HAND, base)
        need_alone(2, base)
        need(bench.verdict(base) == "lawful 4", f"the history by hand is found {bench.verdict(base)!r}")
        # Task 1 takes all projects while worker 0 owns one, and worker 0 takes one while worker 1 owns all.
        beside, within = swapped(base, 2, 3), swapped(swapped(base, 1, 3), 2, 3)
        for lines in (beside, within):
            need(is_refused(lambda lines=lines: run_model.replay(PLAN_BY_HAND, lines)), f"the replay takes {lines}")
            need(is_refused(lambda lines=lines: need_alone(2, lines)), f"the reading of owners takes {lines}")
            need(bench.verdict(lines) == "not lawful at 2", f"{lines} is found {bench.verdict(lines)!r}")
    others = [line.replace("locks 3", "locks 2") for line in BY_HAND]
    need(is_refused(lambda: run_model.replay(PLAN_BY_HAND, others)), "the replay takes another number of locks")
    need(not knows_second or bench.verdict(others) == "not lawful at 0", "`check` takes another number of locks")
    print(f"a history by hand is lawful, and its changes are refused ({'in both versions' if knows_second else 'in version 1 alone'})")


def plain_plans() -> dict[str, Plan]:
    """A chain of tasks, and tasks of many projects that don't wait for one another. None asks for all projects."""
    item = Item("lines", "a.txt")
    chain = [Task(0, (number - 1,) if number else (), (Action("release_and_reacquire", None, (item,)),)) for number in range(2048)]
    wide = [Task(number % 64, (), (Action("release_and_reacquire", None, (item,) * 4),)) for number in range(2048)]
    return {"a chain of 2,048 tasks": Plan(1, [], chain), "2,048 tasks of 64 projects with four items": Plan(64, [], wide)}


def count_plain_plans(program: str, older: str, folder: pathlib.Path) -> None:
    """Prints what both programs take for runs of plain plans on one thread: in all, and by the workers in their threads."""
    profile = folder / "callgrind.out"
    for name, plan in plain_plans().items():
        (folder / "plan.toml").write_text(plan.text())
        taken = []
        for which in (older, program):
            words = [which, "run", "plan.toml", "--threads", "1", "--max-workers", "1", "--parallel", "--summary"]
            count, _ = measure.count_instructions(words, profile=str(profile), folder=folder, settings=measure.STEPWISE)
            taken.append((count, runs.inclusive(profile, runs.RUN_OF_THE_WORKERS)))
        (before, before_workers), (now, now_workers) = taken
        print(
            f"{name}: {before} and {now} instructions, {100 * (now / before - 1):.2f} in 100 more (goal: at most {MOST_MORE});"
            f" by the workers {before_workers} and {now_workers}, {100 * (now_workers / before_workers - 1):.2f} in 100 more"
        )


def main() -> None:
    program = measure.leases_program()
    numbers = [int(word) for word in sys.argv[2:5]]
    plans, turns, seed = [*numbers, *[300, 100, random.randrange(2**32)][len(numbers) :]]
    with tempfile.TemporaryDirectory() as name:
        bench = Bench(program, pathlib.Path(name))
        refuse_changed_histories(bench)
        print(f"{plans} random plans, seed {seed}")
        bench.judge_random_plans(seed, plans)
        counts = bench.counts
        print(
            f"  {counts['runs']} runs with {counts['entries']} entries are lawful and have the results of one thread;"
            f" the all-projects lock was taken {counts['all']} times, always alone, and other locks {counts['own']} times"
        )
        bench.run_middle(turns)
        if len(sys.argv) > 5:
            measure.skip_without("valgrind")
            count_plain_plans(program, str(pathlib.Path(sys.argv[5]).resolve()), bench.folder)


if __name__ == "__main__":
    main()
