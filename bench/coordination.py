#!/usr/bin/env python3
"""Times rounds under the state lock beside rounds of a plain Mutex, and counts how often their threads slept.

Copies the crates into a temporary folder, adds a small program, which is proved and built there as the gate builds, and
runs it: rounds of `with_state_lock`, in which a worker takes a lease and gives it back by turns, and rounds of a Mutex
over a counter, by one thread and by four that contend. The two kinds of run take turns, and medians are printed. Each
thread makes 400,000 rounds, so that the threads of a run meet. Not part of the gate. A machine that does other work
meanwhile gives other figures for four threads. Without strace the system calls aren't counted.

    bench/coordination.py [PROGRAM]

PROGRAM is a built program of bench/programs/coordination_rounds.

Measured: a round takes 96 and 100 ns beside 16 of the Mutex alone (5.8 and 6.1 times, goal 4), and 219 and 227 beside 83 and 88 with four
threads (2.6 times, goal 2). A thread slept in 5 of 100 rounds, of the Mutex's in 0.5. Alone no system call comes with more rounds.
"""

import shutil
import statistics
import subprocess
import tempfile

import measure

BELOW = measure.with_those_below("coordination")
PROGRAM = "coordination_rounds"
# As many rounds as a thread of the program makes in a run.
ROUNDS = 400_000
# How often each kind of run is made.
TURNS = 9

# The goals: how many times as long a round under the state lock takes as a round of the Mutex.
MOST_ALONE = 4.0
MOST_CONTENDED = 2.0

Run = tuple[float, float]


def run_once(program: str, *words: str) -> Run:
    """The nanoseconds of the program's last run, of which the first touches the memory, and how often a thread slept in a run."""
    with tempfile.NamedTemporaryFile("r") as said:
        call = ["time", "-q", "-f", "%w", "-o", said.name, program, "many", *words]
        times = subprocess.run(call, capture_output=True, text=True, check=True).stdout.split()
        return float(times[-1]), int(said.read()) / len(times)


def medians(runs: list[Run]) -> Run:
    return statistics.median(run[0] for run in runs), statistics.median(run[1] for run in runs)


def compare(program: str, threads: str, number: int, most: float) -> None:
    turns = [(run_once(program, threads), run_once(program, threads, "locked")) for _ in range(TURNS)]
    rounds = ROUNDS * number
    plain, slept_plain = medians([plain for plain, _ in turns])
    locked, slept_locked = medians([locked for _, locked in turns])
    print(
        f"{number} thread{'s' if number > 1 else ''}: a round of the Mutex {plain / rounds:5.1f} ns, under the state lock"
        f" {locked / rounds:5.1f} ns, {locked / plain:.1f} times as long (goal {most}); a thread slept in"
        f" {slept_plain / rounds:.4f} and {slept_locked / rounds:.4f} of the rounds"
    )


def report_system_calls(program: str) -> None:
    few, many = (measure.count_system_calls([program, "locked", *words]) for words in ([], ["many"]))
    # What comes with the memory that is reserved before the rounds.
    memory = {"mmap", "munmap", "brk", "mremap", "madvise"}
    more = {call: many.get(call, 0) - few.get(call, 0) for call in few.keys() | many.keys()}
    more = {call: count for call, count in more.items() if count != 0 and call not in memory}
    print(f"system calls that come with more rounds by one thread: {more or 'none'} (goal none)")


def report(program: str) -> None:
    compare(program, "one", 1, MOST_ALONE)
    compare(program, "four", 4, MOST_CONTENDED)
    if shutil.which("strace") is None:
        print("the system calls weren't counted: there is no strace here")
    else:
        report_system_calls(program)


def main() -> None:
    measure.skip_without("time")
    measure.report_on(PROGRAM, BELOW, report)


if __name__ == "__main__":
    main()
