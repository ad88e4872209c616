#!/usr/bin/env python3
"""Counts the instructions of the question whether a unit is an item, with the actions of units noted and without.

Copies resource_lock into a temporary folder, and adds a small program, which is proved and built there as the gate builds. Its
graph has 2,048 tasks with one action of four items each. Printed are the instructions a question with the action searched for,
those with it noted, and those a unit that the noting takes. Each is a difference of two runs. Not part of the gate. Skips, with
status 0, where valgrind or rt is missing.

    bench/unit_actions.py [PROGRAM]

PROGRAM is a built program of bench/programs/unit_probe.

Measured: a question takes 197 instructions where the action is searched for, 9 where it is noted; noting takes 14 a unit, once. No goal was
set.
"""


import measure

PROGRAM = "unit_probe"
UNITS = 8192


def instructions(program: str, how: str, rounds: int) -> int:
    """The instructions of a run, in each of whose rounds each unit is asked for once."""
    expected = f"{UNITS * rounds}\n".encode()
    return measure.count_instructions([program, how, str(rounds)], expected, settings=measure.STEPWISE)[0]


def report(program: str) -> None:
    bare = {how: instructions(program, how, 0) for how in ("searched", "noted")}
    for how, without in bare.items():
        print(f"{how}: {(instructions(program, how, 1) - without) / UNITS:.1f} instructions a question")
    print(f"noting: {(bare['noted'] - bare['searched']) / UNITS:.1f} instructions a unit, once")


def main() -> None:
    measure.skip_without("valgrind")
    measure.report_on(PROGRAM, ["resource_lock"], report, "anyhow")


if __name__ == "__main__":
    main()
