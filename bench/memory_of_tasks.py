#!/usr/bin/env python3
"""Measures how much memory tasks take that run to the end, with their history.

Copies the crates into a temporary folder, and adds a small program, which is proved and built there as the gate builds. It opens a book
of so many tasks, each of one action with one item, and one worker runs all of them, so that the book has seven entries of sixteen changes
a task. Printed is the peak of memory of each run, and what a task takes, which is less what a run of no task takes. A number of tasks that
is more than a graph may have is said to be so, and isn't measured.

Not part of the gate. Skips, with status 0, where GNU time or rt is missing; ends with status 1 where a goal is missed.

    bench/memory_of_tasks.py [PROGRAM]

PROGRAM is a built program of bench/programs/memory_of_tasks.

Measured, of a program that wasn't proved: 2,048 tasks 2.0 MB, 100,000 tasks 37.0 MB, 1,000,000 tasks 359 MB.
"""

import subprocess
import sys

import measure

PROGRAM = "memory_of_tasks"
BELOW = measure.with_those_below("lock_journal")
ENTRIES_A_TASK = 7

# Numbers of tasks, and the most megabytes for them, the history included.
MOST_MEGABYTES = {2048: 3.0, 100_000: 60.0, 1_000_000: 600.0}


def entries_of(program: str, tasks: int) -> int | None:
    """How many entries the tasks made, or none where they are more than a graph may have."""
    run = subprocess.run([program, str(tasks)], capture_output=True, text=True, check=True)
    words = run.stdout.split()
    return int(words[0]) if words[1:] == ["entries"] else None


def megabytes_of(program: str, tasks: int) -> float:
    used = measure.usage_of([program, str(tasks)])
    if used.status != 0:
        sys.exit(f"{tasks} tasks: status {used.status}")
    return used.kilobytes / 1024


def report(program: str) -> None:
    within = True
    without = megabytes_of(program, 0)
    for tasks, most in MOST_MEGABYTES.items():
        entries = entries_of(program, tasks)
        if entries is None:
            print(f"{tasks:,} tasks are more than a graph may have")
            continue
        if entries != ENTRIES_A_TASK * tasks:
            sys.exit(f"{tasks} tasks made {entries} entries")
        megabytes = megabytes_of(program, tasks)
        each = (megabytes - without) * 2**20 / tasks
        print(f"{tasks:,} tasks: {megabytes:.1f} MB (goal {most:.0f}), {each:.0f} bytes a task", flush=True)
        within = within and megabytes <= most
    sys.exit(0 if within else 1)


def main() -> None:
    measure.skip_without("time")
    measure.report_on(PROGRAM, BELOW, report, "anyhow")


if __name__ == "__main__":
    main()
