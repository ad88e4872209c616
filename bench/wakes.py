#!/usr/bin/env python3
"""Runs plans that come to a standstill where a wake-up is lost, each many times and with a time limit.

The files that some items and fetches read are named pipes. The bench waits until certain pipes are being read at once, which holds
their workers there, and then lets them go in an order of its own. A pipe that nobody comes to read, or a run that doesn't end, fails
the bench: then a worker slept that could have gone on. Each run has to print what one thread prints of ordinary files. Not part of the gate.

    bench/wakes.py [PROGRAM [RUNS]]

Measured: 20 runs of each plan ended. A program that wakes sleepers only where a ticket is queued, built to try this, stood still in three
of the eight.
"""

import dataclasses
import errno
import os
import pathlib
import resource
import subprocess
import sys
import tempfile
import time

import measure
from threads import action_text, item_text, plan_text, task_text

LIMIT = 30
TEXT = b"a line of words\n"
# A pause in which a worker that was let go comes to where it has to wait.
PAUSE = 0.02
# Room for some of 32 threads, and not for all of them.
FEW_THREADS = 160 * 2**20


@dataclasses.dataclass
class Standstill:
    """A plan, the words it is run with, and the turns: the pipes of a turn are read at once, and then let go one after another."""

    name: str
    plan: str
    words: list[str]
    turns: list[list[str]]
    memory: int | None = None


def one_action(pipes: list[str], plain: int, wait: str = "retain", fetch: str | None = None) -> str:
    items = [item_text("bytes", pipe) for pipe in pipes] + [item_text("lines", "plain.txt")] * plain
    return action_text(items, wait, fetch)


def one_task(action: str) -> str:
    return plan_text(1, [task_text("t", "p0", [], [action])])


def two_tasks(first: str, second: str) -> str:
    return plan_text(1, [task_text("t0", "p0", [], [first]), task_text("t1", "p0", [], [second])])


def words(threads: int, leases: int) -> list[str]:
    return ["--threads", str(threads), "--max-workers", str(leases), "--parallel"]


def contended() -> str:
    return plan_text(2, [task_text(f"t{n}", f"p{n % 2}", [], [one_action([], 3, "release_and_reacquire")]) for n in range(40)])


STANDSTILLS = [
    Standstill("two items of one action at once", one_task(one_action(["a", "b"], 0)), words(2, 2), [["a", "b"]]),
    Standstill("two fetches of one project at once", two_tasks(one_action([], 1, fetch="a"), one_action([], 1, fetch="b")), words(2, 1), [["a", "b"]]),
    Standstill("a resume after the only lease came back", one_task(one_action(["a"], 0)), words(3, 1), [["a"]]),
    Standstill("a resume after another worker's last item", one_task(one_action(["a", "b"], 0)), words(3, 2), [["a", "b"]]),
    Standstill(
        "a fetch that ends while a parked worker retains the lock",
        two_tasks(one_action([], 1, "release_and_reacquire", "a"), one_action(["b"], 0)),
        words(3, 2),
        [["a", "b"]],
    ),
    Standstill("the end, with three workers asleep", one_task(one_action(["a"], 0)), words(4, 4), [["a"]]),
    Standstill("units of its own, and one lease", one_task(one_action(["a"], 299)), words(2, 1), [["a"]]),
    Standstill("32 workers, some without a thread", contended(), words(32, 32), [], FEW_THREADS),
]


def expected(program: str, folder: pathlib.Path, standstill: Standstill) -> tuple[int, bytes]:
    """What one thread prints where the pipes are ordinary files."""
    for pipe in {pipe for turn in standstill.turns for pipe in turn}:
        (folder / pipe).write_bytes(TEXT)
    done = subprocess.run([program, "run", "plan.toml", "--threads", "1"], cwd=folder, capture_output=True, timeout=LIMIT)
    return done.returncode, done.stdout


def open_when_read(pipe: pathlib.Path, until: float) -> int:
    """Opens the pipe for writing once somebody has come to read it."""
    while True:
        try:
            return os.open(pipe, os.O_WRONLY | os.O_NONBLOCK)
        except OSError as error:
            if error.errno != errno.ENXIO:
                raise
        if time.monotonic() > until:
            raise TimeoutError(f"nobody came to read {pipe.name}")
        time.sleep(0.001)


def let_go(folder: pathlib.Path, turn: list[str], until: float) -> None:
    for pipe in [open_when_read(folder / pipe, until) for pipe in turn]:
        os.write(pipe, TEXT)
        os.close(pipe)
        time.sleep(PAUSE)


def run_once(program: str, folder: pathlib.Path, standstill: Standstill) -> tuple[int, bytes]:
    def limit() -> None:
        if standstill.memory is not None:
            resource.setrlimit(resource.RLIMIT_AS, (standstill.memory, standstill.memory))

    words = [program, "run", "plan.toml", *standstill.words]
    run = subprocess.Popen(words, cwd=folder, stdout=subprocess.PIPE, stderr=subprocess.DEVNULL, preexec_fn=limit)
    until = time.monotonic() + LIMIT
    try:
        for turn in standstill.turns:
            let_go(folder, turn, until)
        printed, _ = run.communicate(timeout=until - time.monotonic())
    except (TimeoutError, subprocess.TimeoutExpired) as error:
        sys.exit(f"{standstill.name}: the run stands still: {error}")
    finally:
        run.kill()
    return run.returncode, printed


def try_many_times(program: str, standstill: Standstill, runs: int) -> None:
    with tempfile.TemporaryDirectory() as name:
        folder = pathlib.Path(name)
        (folder / "plan.toml").write_text(standstill.plan)
        (folder / "plain.txt").write_bytes(TEXT)
        wanted = expected(program, folder, standstill)
        for pipe in {pipe for turn in standstill.turns for pipe in turn}:
            (folder / pipe).unlink()
            os.mkfifo(folder / pipe)
        for _ in range(runs):
            printed = run_once(program, folder, standstill)
            if printed != wanted:
                sys.exit(f"{standstill.name}: printed {printed!r}, and one thread prints {wanted!r}")
    print(f"{standstill.name}: {runs} runs ended, and printed what one thread prints")


def main() -> None:
    program = measure.leases_program()
    runs = int(sys.argv[2]) if len(sys.argv) > 2 else 20
    for standstill in STANDSTILLS:
        try_many_times(program, standstill, runs)


if __name__ == "__main__":
    main()
