#!/usr/bin/env python3
"""Counts instructions of the ordering of tasks, and times it.

Copies the crates into a temporary folder, and adds a small program, which is proved and built there as the gate builds.
It orders 2,048 tasks: each with 2,048 numbers in one of its three lists, and as a chain in which each comes after the next.
What is counted is `Ordering::of` and the release of the order: a run with one round less one without. Printed are the
instructions a number, and a task of the chain, and the least time of some rounds. Not part of the gate. Skips, with status 0,
where valgrind or rt is missing; ends with status 1 where a goal is missed.

    bench/task_ordering.py [PROGRAM]

PROGRAM is a built program of bench/programs/order_probe.

Measured: instructions a number in `after` 68.8, `must_after` 62.8, `finalized_by` 71.3 (goal 100), 213 to 257 ms for 4.2 million; a
reversed chain 1,161 a task and 0.15 ms (goal 1 ms).
"""

import subprocess
import sys

import measure

BELOW = measure.with_those_below("task_ordering")
PROGRAM = "order_probe"

TASKS = 2048
NUMBERS = 2048
ROUNDS = 9
FULL_LISTS = ["after", "must-after", "finalized-by"]

# The goals: the most instructions a number of a list, and the most milliseconds for the chain.
MOST_A_NUMBER = 100.0
MOST_MILLISECONDS = 1.0


def instructions(program: str, lists: str) -> int:
    with_it, without = (
        measure.count_instructions([program, lists, rounds], settings=measure.STEPWISE)[0] for rounds in ("1", "0")
    )
    return with_it - without


def milliseconds(program: str, lists: str) -> float:
    """The least time of some rounds, each of which orders all tasks."""
    run = subprocess.run([program, lists, str(ROUNDS)], capture_output=True, text=True, check=True)
    ordered, nanoseconds = run.stdout.split()
    if int(ordered) != TASKS:
        sys.exit(f"{lists}: {ordered} tasks were ordered")
    return int(nanoseconds) / 1e6


def report(program: str) -> None:
    within = True
    for lists in FULL_LISTS:
        a_number = instructions(program, lists) / ((TASKS - 1) * NUMBERS)
        print(f"{lists}: {a_number:.1f} instructions a number (goal {MOST_A_NUMBER:.0f}), {milliseconds(program, lists):.1f} ms")
        within = within and a_number <= MOST_A_NUMBER
    taken = milliseconds(program, "chain")
    print(f"chain: {instructions(program, 'chain') / TASKS:.0f} instructions a task, {taken:.2f} ms (goal {MOST_MILLISECONDS:.0f})")
    sys.exit(0 if within and taken <= MOST_MILLISECONDS else 1)


def main() -> None:
    measure.skip_without("valgrind")
    measure.report_on(PROGRAM, BELOW, report, "anyhow")


if __name__ == "__main__":
    main()
