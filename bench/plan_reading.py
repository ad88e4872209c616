#!/usr/bin/env python3
"""Counts instructions and memory of the reading of large plans.

Makes its own plans in a temporary folder and runs the program `plan_probe` on them under valgrind's callgrind: it reads
a file and the plan in it, and does no more. Of each plan within the limits the names in `after` are in the order of
the tasks, and once more in a random order. A chain of too many tasks is refused by its number of tasks. Not part of
the gate. Skips, with status 0, where valgrind, GNU time or `rt` is missing.

    bench/plan_reading.py [PROGRAM [PART..]]

PROGRAM is a plan_probe that was built before; without it one is proved and built, which takes long. Each PART is a
number: plans with that part of the limits are read, and no chains.

Measured: 3.7 MB, the limits of a plan: 96.1 instructions a byte with names in order, 98.5 in a random one, of which 17.2 and 19.6 aren't
the kit's `toml`; an eighth of it 99.5 and 101.7. Peak 31.2 MB. A chain of 100,000 tasks is refused at 309 a byte and 159 MB. 40,000 names
with one hash take as long as random ones. A task with one item takes 37,800.
"""

import pathlib
import random
import sys
import tempfile

import measure

# The goals: instructions a byte of the plan, and peak memory for the largest plan within the limits.
MOST_A_BYTE = 100
MOST_KILOBYTES = 60 * 1024

PROJECTS = 512
TASKS = 2048
NAMES = 64
ITEMS = 8192
CHAIN = 100_000
TOO_MANY = "TooMany(Tasks, Place { part: Plan, number: 0 })\n"

# The crates that the program stands on.
BELOW = [*measure.with_those_below("plan_reader"), "file_access"]


def task_name(task: int) -> str:
    return f"a-task-named-{task:06}"


def plan_text(part: int, order: random.Random | None = None) -> str:
    """A plan with one part in `part` of the most that there may be of each. An order shuffles the names in `after`."""
    tasks = TASKS // part
    lines = []
    for project in range(PROJECTS // part):
        lines += ["[[project]]", f'name = "project-{project:03}"']
    for task in range(tasks):
        others = list(range(max(0, task - NAMES), task))
        if order is not None:
            order.shuffle(others)
        after = ", ".join(f'"{task_name(other)}"' for other in others)
        project = task % (PROJECTS // part)
        lines += ["[[task]]", f'name = "{task_name(task)}"', f'project = "project-{project:03}"', f"after = [{after}]"]
        lines += ["[[task.action]]", 'wait = "retain"']
        for item in range(ITEMS // TASKS):
            lines += ["[[task.action.item]]", 'do = "words"', f'file = "src/file-{item}.txt"']
    return "\n".join(lines) + "\n"


def short_name(number: int) -> str:
    digits = "0123456789abcdefghijklmnopqrstuvwxyz"
    return "".join(digits[number // 36**place % 36] for place in range(4))


def chain_text(tasks: int) -> str:
    """Tasks each of which comes after the one behind it in the plan, written shortly to stay below the most bytes."""
    rows = []
    for task in range(tasks):
        after = f',after=["{short_name(task + 1)}"]' if task + 1 < tasks else ""
        rows.append(f'{{name="{short_name(task)}",project="p"{after}}}')
    return 'project=[{name="p"}]\ntask=[' + ",".join(rows) + "]\n"


def measure_plan(program: str, name: str, text: str, expected: str) -> int:
    """Prints the figures of a plan. Its instructions are given back."""
    words = [program, "plan.toml"]
    with tempfile.TemporaryDirectory() as folder_name:
        folder = pathlib.Path(folder_name)
        (folder / "plan.toml").write_text(text)
        count, _ = measure.count_instructions(words, expected.encode(), folder=folder)
        used = measure.usage_of(words, folder)
    print(
        f"{name}: {len(text):8} bytes, {count:12} instructions, {count / len(text):6.1f} a byte (goal {MOST_A_BYTE}),"
        f" peak {used.kilobytes} KB (goal {MOST_KILOBYTES}), {used.seconds:.2f} s"
    )
    return count


def measure_part(program: str, part: int) -> int:
    """Prints the figures of both plans. The instructions of the one whose names are in order are given back."""
    expected = f"{TASKS // part} tasks\n"
    counts = [
        measure_plan(program, f"1/{part} of the limits, {name}", plan_text(part, order), expected)
        for name, order in (("in order", None), ("in a random order", random.Random(5)))
    ]
    return counts[0]


def measure_all(program: str) -> None:
    counts = {part: measure_part(program, part) for part in (8, 4, 2, 1)}
    print(f"growth from 1/8 to the whole: {counts[1] / counts[8]:.2f}")
    chains = [
        measure_plan(program, f"a reversed chain of {tasks} tasks", chain_text(tasks), TOO_MANY)
        for tasks in (CHAIN // 2, CHAIN)
    ]
    print(f"growth from {CHAIN // 2} to {CHAIN} tasks: {chains[1] / chains[0]:.2f}")


def main() -> None:
    measure.skip_without("valgrind", "time", "rt")
    if len(sys.argv) > 1:
        program = str(pathlib.Path(sys.argv[1]).resolve())
        for word in sys.argv[2:]:
            measure_part(program, int(word))
        if len(sys.argv) == 2:
            measure_all(program)
        return
    with tempfile.TemporaryDirectory() as name:
        workshop = measure.Workshop(pathlib.Path(name), BELOW)
        workshop.add("plan_probe", "item_actions", "file_access", "plan_reader", "anyhow")
        measure_all(workshop.build("plan_probe"))


if __name__ == "__main__":
    main()
