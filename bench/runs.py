#!/usr/bin/env python3
"""Counts instructions and memory of `leases run` on plans whose tasks have an action each.

Makes its own plans and files in a temporary folder, and prints one line a plan. Not part of the gate. Skips, with status
0, where valgrind or GNU time is missing.

    bench/runs.py [PROGRAM [ITEMS..]]

Measured: instructions a unit: 48,023 with 1,024 items in as many tasks, 48,144 with 2,048, 34,238 with 4,096 in 2,048 tasks, 26,957 with
8,192; a transform 754 to 772; peak 7.8 MB. 8 and 64 names in `after`: a unit without the plan's reading 15,981 and 20,060. An entry is
printed in 422 to 446. `lines` over 64 files of 4 MiB takes 0.44 a byte.
"""

import pathlib
import re
import subprocess
import sys
import tempfile

import measure

ITEMS = [1024, 2048, 4096, 8192]
TASKS = 2048
NAMES = [8, 64]
RUN = ["run", "plan.toml", "--max-workers", "1", "--threads", "1", "--history"]

# The goals: instructions a unit with the plan's reading, those of a transform of the workers without their
# looks at files, growth from 2,048 to 8,192 items, and peak memory.
MOST_A_UNIT = 15_000
MOST_A_TRANSFORM = 1_500
MOST_GROWTH = 4.3
MOST_KILOBYTES = 40 * 1024

# Of the growth from the fewest to the most names in `after`, so much at most in what isn't the plan's reading.
MOST_GROWTH_BY_NAMES = 2.0

# The functions whose difference is what the workers do in their threads, without their looks at files. The compiler puts the
# calls that open and close the book into the function of the whole call, so they are counted with the plan's reading.
RUN_OF_THE_WORKERS = "std::thread::fork::chunks_from"
READING_OF_FILES = "FolderDeskFiles::act_on"
READING_OF_THE_PLAN = "command_answers::plans::read"


def plan_text(items: int, names: int = 0) -> str:
    """A plan of so many items, whose tasks come each after as many tasks before it."""
    tasks = min(items, TASKS)
    lines = ["[[project]]", 'name = "app"']
    for task in range(tasks):
        lines += ["[[task]]", f'name = "task{task}"', 'project = "app"']
        if names:
            after = ", ".join(f'"task{other}"' for other in range(max(0, task - names), task))
            lines.append(f"after = [{after}]")
        lines += ["[[task.action]]", 'wait = "retain"']
        for item in range(items // tasks):
            lines += ["[[task.action.item]]", 'do = "lines"', f'file = "src/file{(task + item) % 16}.txt"']
    return "\n".join(lines) + "\n"


def make_folder(folder: pathlib.Path, items: int, names: int = 0) -> None:
    (folder / "src").mkdir()
    for number in range(16):
        (folder / f"src/file{number}.txt").write_text("a line of text\n" * number)
    (folder / "plan.toml").write_text(plan_text(items, names))


def inclusive(profile: pathlib.Path, name: str) -> int:
    """The instructions of a function with all that it calls."""
    call = ["callgrind_annotate", "--inclusive=yes", "--threshold=100", str(profile)]
    table = subprocess.run(call, capture_output=True, text=True).stdout
    found = re.search(r"^\s*([\d,]+) .*" + re.escape(name), table, re.MULTILINE)
    if found is None:
        sys.exit(f"callgrind names no function {name}")
    return int(found.group(1).replace(",", ""))


def measure_plan(program: str, items: int) -> int:
    """Prints the figures of a plan of so many items. Its instructions are given back."""
    words = [program, *RUN]
    with tempfile.TemporaryDirectory() as name:
        folder = pathlib.Path(name)
        make_folder(folder, items)
        profile = folder / "callgrind.out"
        count, output = measure.count_instructions(words, profile=str(profile), folder=folder)
        transforms = inclusive(profile, RUN_OF_THE_WORKERS) - inclusive(profile, READING_OF_FILES)
        used = measure.usage_of(words, folder)
    if used.status != 0:
        sys.exit(f"the program ended with {used.status}")
    entries = int(output.split()[-1])
    print(
        f"{items:5} items in {min(items, TASKS):4} tasks: {count:12} instructions,"
        f" {count // items:6} a unit (goal {MOST_A_UNIT}),"
        f" {transforms // entries:5} a transform (goal {MOST_A_TRANSFORM}),"
        f" peak {used.kilobytes} KB (goal {MOST_KILOBYTES})"
    )
    return count


def measure_names(program: str, names: int) -> int:
    """Prints what a run of tasks with so many names in `after` takes, and gives back what isn't the plan's reading."""
    with tempfile.TemporaryDirectory() as name:
        folder = pathlib.Path(name)
        make_folder(folder, TASKS, names)
        profile = folder / "callgrind.out"
        count, _ = measure.count_instructions([program, *RUN], profile=str(profile), folder=folder)
        reading = inclusive(profile, READING_OF_THE_PLAN)
        workers = inclusive(profile, RUN_OF_THE_WORKERS) - inclusive(profile, READING_OF_FILES)
    rest = count - reading
    print(
        f"{names:5} names in after: {count:12} instructions, {reading:12} for the plan's reading,"
        f" {rest // TASKS:6} a unit without that, {workers // TASKS:6} by the workers"
    )
    return rest


def main() -> None:
    measure.skip_without("valgrind", "time")
    program = measure.leases_program()
    sizes = [int(word) for word in sys.argv[2:]] or ITEMS
    totals = {items: measure_plan(program, items) for items in sizes}
    if {2048, 8192} <= totals.keys():
        print(f"growth from 2048 to 8192 items: {totals[8192] / totals[2048]:.2f} (goal {MOST_GROWTH})")
    rests = [measure_names(program, names) for names in NAMES]
    growth = rests[-1] / rests[0]
    print(f"growth from {NAMES[0]} to {NAMES[-1]} names, without the plan's reading: {growth:.2f} (goal {MOST_GROWTH_BY_NAMES})")


if __name__ == "__main__":
    main()
