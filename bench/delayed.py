#!/usr/bin/env python3
"""Runs small plans while each call of futex is delayed at random, and looks whether each run ends and prints what one thread prints.

A small library in C is loaded into the program. It holds each call of futex up before it is made and behind it, by times that are drawn
anew. So a thread that was woken comes late, one that goes to sleep is late too, and one that wakes another does it when the state is
another already. The opening of files is held up too: else items are so short that hardly anybody sleeps.

The plans are random ones with fetches and missing files, tasks that contend for two locks, a chain, and many small items. The numbers of
threads and leases, the longest delay and the plan differ from run to run, by a seed that is printed. A run that hasn't ended after 30
seconds stands still, and fails the bench, as does another result. So does it where no call of futex was seen. Not part of the gate. Skips,
with status 0, where there is no C compiler.

    bench/delayed.py [PROGRAM [RUNS [SEED]]]

Measured: 2,000 runs ended (seed 2064029290), with 86,071 delayed calls of futex, 38,267 of them at 32 threads. Of three spoilt peers two
stood still within 300 runs. One, which never wakes a parked sleeper for an item alone, didn't in 2,100: who queues an item comes to claim
it too.
"""

import os
import pathlib
import random
import subprocess
import sys
import tempfile
import time

import measure
import threads

RUNS = 2000
LIMIT = 30
THREADS = [2, 3, 4, 8, 32]
# The longest delays, in microseconds.
DELAYS = [20, 100, 500, 2000]
SOURCE = measure.PROGRAMS / "delayed_calls/delayed_calls.c"


class Stress:
    def __init__(self, program: str, folder: pathlib.Path, seed: int) -> None:
        self.program, self.folder, self.seed = program, folder, seed
        self.draw = random.Random(seed)
        self.library = folder / "delayed_calls.so"
        subprocess.run(["cc", "-O2", "-shared", "-fPIC", "-o", str(self.library), str(SOURCE)], check=True)
        self.plans = {"two locks": threads.contended_plan(), "a chain": threads.chain_plan(32), "small items": threads.wide_plan(32, 4, 8)}
        self.calls = {number: 0 for number in THREADS}
        self.runs = {number: 0 for number in THREADS}

    def fail(self, what: str, words: list[str], settings: dict[str, str]) -> None:
        told = " ".join(f"{key}={settings[key]}" for key in ("SEED", "MOST"))
        sys.exit(f"{what}, with {told} and {' '.join(words)}, seed {self.seed}:\n{(self.folder / 'plan.toml').read_text()}")

    def run_delayed(self, words: list[str], settings: dict[str, str]) -> tuple[int, bytes]:
        call = [self.program, *words]
        try:
            run = subprocess.run(call, cwd=self.folder, capture_output=True, env=os.environ | settings, timeout=LIMIT)
        except subprocess.TimeoutExpired:
            self.fail("a run stands still", words, settings)
        return run.returncode, run.stdout

    def try_once(self, turn: int) -> None:
        kind = turn % (len(self.plans) + 1)
        plan = threads.random_plan(self.draw) if kind == len(self.plans) else list(self.plans.values())[kind]
        (self.folder / "plan.toml").write_text(plan)
        number = THREADS[self.draw.randrange(len(THREADS))]
        words = ["run", "plan.toml", "--threads", str(number), "--max-workers", str(self.draw.randint(1, number))]
        words += ["--parallel"] * self.draw.randint(0, 1)
        counted = self.folder / "counted"
        settings = {
            "LD_PRELOAD": str(self.library),
            "SEED": str(self.draw.randrange(2**32)),
            "MOST": str(self.draw.choice(DELAYS)),
            "COUNTED": str(counted),
        }
        expected = threads.run(self.program, self.folder, "--threads", "1")
        if expected[0] not in (0, 1):
            self.fail(f"one thread ends with status {expected[0]}", words, settings)
        printed = self.run_delayed(words, settings)
        if printed != expected:
            self.fail(f"printed {printed!r}, and one thread prints {expected!r}", words, settings)
        self.calls[number] += int.from_bytes(counted.read_bytes(), sys.byteorder)
        self.runs[number] += 1
        counted.unlink()

    def try_many(self, runs: int) -> None:
        start = time.monotonic()
        for turn in range(runs):
            self.try_once(turn)
        print(f"{runs} runs ended, and printed what one thread prints; {(time.monotonic() - start) / max(runs, 1) * 1000:.0f} ms each")
        for number in THREADS:
            print(f"  {number} threads: {self.runs[number]} runs, {self.calls[number]} calls of futex delayed")
        if not sum(self.calls.values()):
            sys.exit("no call of futex was seen, so nothing was delayed")


def main() -> None:
    measure.skip_without("cc")
    program = measure.leases_program()
    runs = int(sys.argv[2]) if len(sys.argv) > 2 else RUNS
    seed = int(sys.argv[3]) if len(sys.argv) > 3 else random.randrange(2**32)
    print(f"{runs} runs, seed {seed}", flush=True)
    with tempfile.TemporaryDirectory() as name:
        folder = pathlib.Path(name)
        for number, file in enumerate(threads.FILES[:3]):
            (folder / file).write_bytes(b"a line of words\n" * (number * number * 3 + 1))
        Stress(program, folder, seed).try_many(runs)


if __name__ == "__main__":
    main()
