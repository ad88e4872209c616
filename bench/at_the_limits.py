#!/usr/bin/env python3
"""Counts what each step of a task takes at the limits of the state, beside what it takes in a small graph.

Copies the crates into a temporary folder, and adds a small program, which is proved and built there as the gate builds. It opens a
planned service, in which each task has an action of one item, has one worker run half of the tasks, and then 256 more, whose steps
are counted by name: the question what is next, a start, a submit, the beginning of a wait, a claim, a close, a resume and an end, each
in a hold of its own. That is done with 2,048 tasks of 64 locks and with 2^20 tasks of 2^16 locks, the all-projects lock among them. Half
of the tasks give their lock back while they wait. Instructions by valgrind, which takes a minute or two for the large graph.

Not part of the gate. Skips, with status 0, where valgrind or rt is missing; ends with status 1 where a goal is missed.

    bench/at_the_limits.py [PROGRAM [TASKS LOCKS]]

PROGRAM is a built program of bench/programs/at_the_limits. TASKS and LOCKS stand for the limits.

Measured, of a program that wasn't proved: at the limits the question what is next takes 469 instructions beside 359, a start 1,529 (1,532),
a submit 1,097 and the same, a wait 1,204 (1,206), a claim 1,047 and the same, a close 1,116 and the same, a resume 1,272 (1,274) and an
end 1,925 (1,934). The opening takes 489 a task beside 495.
"""

import pathlib
import re
import subprocess
import sys
import tempfile

import measure

PROGRAM = "at_the_limits"
BELOW = measure.with_those_below("async_tracker")
SMALL = (2048, 64)
LIMITS = (2**20, 2**16)
COUNTED = 256
ENTRIES_A_TASK = 7

# Functions of the program whose instructions are counted: those that open the service, and a step each.
OPENING = ["make_graph", "open_service"]
STEPS = ["next", "start", "submit", "park", "claim", "close", "resume", "end"]

# The goals: how often as much a step may take at the limits, and the instructions that the opening takes a task.
MOST_TIMES = 2.0
MOST_OPENING = 1_000


def inclusive(profile: pathlib.Path) -> dict[str, int]:
    """The instructions of each counted function, with all that it calls, by the name behind the program's own."""
    call = ["callgrind_annotate", "--inclusive=yes", "--threshold=100", str(profile)]
    table = subprocess.run(call, capture_output=True, text=True, check=True).stdout
    rows = re.findall(r"^\s*([\d,]+) .*\b" + PROGRAM + r"::(\w+)", table, re.MULTILINE)
    found: dict[str, int] = {}
    for count, name in rows:
        found.setdefault(name, int(count.replace(",", "")))
    return found


def count(program: str, tasks: int, locks: int) -> dict[str, float]:
    """The instructions of each step on average, and those of the opening a task."""
    toggles = [f"--toggle-collect={PROGRAM}::{name}" for name in [*OPENING, *(f"counted_{step}" for step in STEPS)]]
    with tempfile.TemporaryDirectory() as folder:
        profile = pathlib.Path(folder) / "callgrind.out"
        tool = ["valgrind", "--tool=callgrind", f"--callgrind-out-file={profile}", *toggles]
        ran = measure.run_under(tool, [program, str(tasks), str(locks)], settings=measure.STEPWISE)
        expected = f"{ENTRIES_A_TASK * (tasks // 2 + min(COUNTED, tasks // 2))} entries\n"
        if ran.output.decode() != expected:
            sys.exit(f"{tasks} tasks of {locks} locks printed {ran.output!r}, not {expected!r}:\n{ran.said}")
        taken = inclusive(profile)
    steps = {step: taken[f"counted_{step}"] / COUNTED for step in STEPS}
    return steps | {"opening": sum(taken[name] for name in OPENING) / tasks}


def report(program: str) -> None:
    limits = (int(sys.argv[2]), int(sys.argv[3])) if len(sys.argv) > 3 else LIMITS
    small = count(program, *SMALL)
    large = count(program, *limits)
    print(f"{'':8} {SMALL[0]:>9,} of {SMALL[1]:<6,} {limits[0]:>9,} of {limits[1]:<6,}  times (goal {MOST_TIMES})")
    for step in STEPS:
        print(f"{step:8} {small[step]:>19,.0f} {large[step]:>19,.0f} {large[step] / small[step]:>8.2f}")
    print(f"{'opening':8} {small['opening']:>19,.0f} {large['opening']:>19,.0f}  a task (goal {MOST_OPENING:,})", flush=True)
    within = all(large[step] <= MOST_TIMES * small[step] for step in STEPS)
    sys.exit(0 if within and large["opening"] <= MOST_OPENING else 1)


def main() -> None:
    measure.skip_without("valgrind")
    measure.report_on(PROGRAM, BELOW, report, "anyhow")


if __name__ == "__main__":
    main()
