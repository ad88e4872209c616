#!/usr/bin/env python3
"""Watches real worker processes that have to stay within a budget of memory.

Runs the built program of crates/budgeted_daemons, in which 8 threads run 200 items of four heaps, and no three of these heaps fit at a
time. The sums of heaps are reckoned in three ways, and each has to be at most the budget at all times: from the events that the program
prints; from its child processes as /proc shows them while it runs, each with its heap among its words; and, where there is strace, from
each start and each end of a child in the system's own order. Each run has a time limit. Not part of the gate.

    bench/memory_budget.py [PROGRAM [RUNS]]

Measured: 100 runs with 2,716 worker processes ended, each in 0.07 s: at most 1,600 MB at any time by the events, by 18,105 looks at the
system, and by the starts and ends of 10 more runs under strace.
"""

import collections
import pathlib
import re
import shutil
import subprocess
import sys
import tempfile
import time

import measure

FOLDER = measure.TOP / "crates/budgeted_daemons"
BUDGET_MB = 1600
ITEMS = 200
HEAP = re.compile(rb"\0-Xmx(\d+)m\0")
STARTED = re.compile(r'^(\d+) .*execve\(.*"-Xmx(\d+)m"')
ENDED = re.compile(r"^(\d+) +\+\+\+ ")
MOST_SECONDS = 60
STRACED_RUNS = 5


def heap_of(child: str) -> int:
    """The heap of a child in MB. It is 0 before the child is the program that it was started as, and once it has ended."""
    try:
        found = HEAP.search(pathlib.Path("/proc", child, "cmdline").read_bytes())
    except OSError:
        return 0
    return int(found[1]) if found else 0


def children_of(process: int) -> list[str]:
    children = []
    for task in pathlib.Path("/proc", str(process), "task").glob("*/children"):
        try:
            children += task.read_text().split()
        except OSError:
            pass
    return children


def heap_now(process: int) -> int:
    """The heaps of the children that are there together. Each is looked at twice: what is there both times was there in between."""
    seen = {child: heap_of(child) for child in children_of(process)}
    return sum(heap for child, heap in seen.items() if heap and heap_of(child) == heap)


def fail(text: str) -> None:
    sys.exit(f"memory_budget: {text}")


def most_of_events(printed: str) -> tuple[int, int]:
    """The greatest sum of heaps by the events that the program printed, and how many processes it started."""
    lines = printed.splitlines()
    if lines[:2] != [f"items: {ITEMS} right, 0 wrong", "leases out: 0"]:
        fail(f"the program printed {lines[:2]}")
    heaps: dict[str, int] = {}
    units: collections.Counter[str] = collections.Counter()
    held = most = started = 0
    for what, daemon, *number in map(str.split, lines[2:]):
        if what == "started":
            heaps[daemon] = int(number[0])
            held += heaps[daemon]
            started += 1
        elif what == "reserved":
            units[number[0]] += 1
        elif what in ("stopped", "failed"):
            held -= heaps.pop(daemon)
        most = max(most, held)
    if held or units != {str(unit): 1 for unit in range(ITEMS)}:
        fail(f"{held} MB are held at the end, and {len(units)} items were run")
    return most, started


def watch(program: str) -> tuple[int, int, int, int]:
    """One run: the greatest sums by the events and by the system, how many processes there were, and how often was looked."""
    with tempfile.TemporaryFile("w+") as out:
        run = subprocess.Popen([program, "events"], cwd=FOLDER / "data", stdin=subprocess.DEVNULL, stdout=out)
        most = looks = 0
        start = time.monotonic()
        while run.poll() is None:
            most = max(most, heap_now(run.pid))
            looks += 1
            if time.monotonic() - start > MOST_SECONDS:
                run.kill()
                fail(f"a run hasn't ended after {MOST_SECONDS} seconds")
        out.seek(0)
        told, started = most_of_events(out.read())
    if run.returncode:
        fail(f"the program ended with status {run.returncode}")
    return told, most, started, looks


def most_of_system_calls(program: str) -> int:
    """The greatest sum of heaps of one run by the starts and the ends of its children, in the order in which strace saw them."""
    with tempfile.TemporaryDirectory() as name:
        trace = pathlib.Path(name, "trace")
        words = ["strace", "-f", "-e", "trace=execve", "-e", "signal=none", "-s", "200", "-o", str(trace), program, "events"]
        done = subprocess.run(words, cwd=FOLDER / "data", capture_output=True, text=True, timeout=MOST_SECONDS)
        most_of_events(done.stdout)
        heaps: dict[str, int] = {}
        most = 0
        for line in trace.read_text().splitlines():
            if found := STARTED.match(line):
                heaps[found[1]] = int(found[2])
                most = max(most, sum(heaps.values()))
            elif found := ENDED.match(line):
                heaps.pop(found[1], None)
    return most


def main() -> None:
    program = pathlib.Path(sys.argv[1]).resolve() if len(sys.argv) > 1 else FOLDER / "out/budgeted_daemons"
    runs = int(sys.argv[2]) if len(sys.argv) > 2 else 50
    if not program.exists():
        fail(f"there is no program {program}: `rt run` in crates/budgeted_daemons builds it")
    found = [watch(str(program)) for _ in range(runs)]
    told, seen, started, looks = (list(column) for column in zip(*found))
    print(f"{runs} runs of {ITEMS} items, {sum(started)} worker processes, {sum(looks)} looks, budget {BUDGET_MB} MB")
    print(f"most by the events: {max(told)} MB; most by the system: {max(seen)} MB")
    if max(told) > BUDGET_MB or max(seen) > BUDGET_MB:
        fail("that is over the budget")
    if shutil.which("strace"):
        most = max(most_of_system_calls(str(program)) for _ in range(STRACED_RUNS))
        print(f"{STRACED_RUNS} runs under strace: most by the starts and ends of children: {most} MB")
        if most > BUDGET_MB:
            fail("that is over the budget")


if __name__ == "__main__":
    main()
