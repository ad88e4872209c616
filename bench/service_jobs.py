#!/usr/bin/env python3
"""Measures 2,000 jobs that use eight shared services, on one desk and on 32.

Copies the crates into a temporary folder, and adds a small program, which is proved and built there as the gate builds.
The services have the maxima 8 to 1. Every second job uses the first, every third the second, and so on. Printed are the
instructions of a job on one desk, the median of the processor's milliseconds that a run takes, and how often a thread slept
in one. Not part of the gate. A machine that does other work meanwhile gives other figures for 32 desks. Skips, with
status 0, where valgrind, time or rt is missing.

    bench/service_jobs.py [PROGRAM]

PROGRAM is a built program of bench/programs/job_rounds.

Measured: 3,215 instructions a job on one desk; a run takes 1.6 ms of a processor on one desk, and 5.0 ms on 32, where a thread slept 96
times. No goal was set.
"""

import statistics
import subprocess
import sys
import tempfile

import measure

BELOW = [*measure.with_those_below("shared_services"), "memory_files"]
PROGRAM = "job_rounds"
JOBS = 2000
# How many runs the program makes in a call, and how often it is called.
ROUNDS = 100
TURNS = 7


def run_once(program: str, desks: int) -> tuple[float, float]:
    """The milliseconds of a processor that a run takes, and how often a thread slept in it."""
    with tempfile.NamedTemporaryFile("r") as said:
        call = ["time", "-q", "-f", "%U %S %w", "-o", said.name, program, str(desks), str(ROUNDS)]
        printed = subprocess.run(call, capture_output=True, text=True, check=True).stdout
        if int(printed) != 2 * JOBS:
            sys.exit(f"{desks} desks: {printed.strip()} entries for {JOBS} jobs")
        user, system, slept = said.read().split()
        return (float(user) + float(system)) / ROUNDS * 1000, int(slept) / ROUNDS


def instructions(program: str) -> float:
    """The instructions of a job on one desk, its making among them."""
    once, twice = (measure.count_instructions([program, "1", rounds], settings=measure.STEPWISE)[0] for rounds in ("1", "2"))
    return (twice - once) / JOBS


def report(program: str) -> None:
    print(f"1 desk: {instructions(program):.0f} instructions a job")
    for desks in (1, 32):
        runs = [run_once(program, desks) for _ in range(TURNS)]
        spent, slept = (statistics.median(run[place] for run in runs) for place in (0, 1))
        print(f"{desks} desk{'s' if desks > 1 else ''}: {spent:.1f} ms of a processor, and a thread slept {slept:.0f} times")


def main() -> None:
    measure.skip_without("valgrind", "time")
    measure.report_on(PROGRAM, BELOW, report, "anyhow")


if __name__ == "__main__":
    main()
