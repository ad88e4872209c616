#!/usr/bin/env python3
"""Times plans that are run through the C interface, or drives random ones.

* an item that does nothing, closed by wakhurmi_done_next, on one thread and on four: medians of some turns, by the clock;
* 10,000 items of 20 microseconds of a processor, on one thread and on 32: processor time;
* calls of futex an item, of 4 threads and of 32, as strace counts them;
* 100,000 tasks of an item each on 256 threads: by the clock, and the peak of memory.

The archive is that of WAKHURMI, a folder that c/build.sh has filled, or made here, which proves crates/wakhurmi_c where that is still to be done. Not
part of the gate.

    bench/c_plans.py

With --random PLANS it drives so many random plans instead, on 1 to 32 threads by the plan's number, with fewer leases. bench/programs/c_plan compares each
outcome with a reckoning of its own. Each history is replayed by examples/plan-in-c/replay.py, which asks of each entry that it is the one the rules give,
and checked by the program `leases` against the plan as TOML. It ends with status 1 at the first plan that isn't as it has to be.

    bench/c_plans.py --random 10000 [--leases PROGRAM]

PROGRAM is out/leases where it isn't given, which `./leases` builds.

Measured: an item that does nothing takes 360 ns on one thread and 379 on four; an item of 20 microseconds 21.0 microseconds of a processor on one
thread and 22.1 on 32; 0.002 calls of futex an item with 4 threads, 0.013 with 32; 100,000 tasks on 256 threads 0.6 s of a processor and 62 MB.

Goals: at most 1.2 microseconds an item on one thread, and 1.5 times that on four; 32 threads take at most 1.3 times the processor time of one; at most
0.2 calls of futex an item.
"""

import argparse
import concurrent.futures
import os
import pathlib
import re
import statistics
import subprocess
import sys
import tempfile
import time

import measure

TURNS, ITEMS = 9, 200_000
LONG_ITEMS, LENGTH = 10_000, 20
THREADS, TASKS = 256, 100_000
# So many random plans are driven by one call of the program.
AT_ONCE = 250
REPLAY = measure.TOP / "examples/plan-in-c/replay.py"
MOST_ALONE, MOST_ON_FOUR, MOST_PROCESSOR, MOST_FUTEX = 1200.0, 1.5, 1.3, 0.2


def verdict(value: float, most: float) -> str:
    return f"goal {most}: {'met' if value <= most else 'missed'}"


def built(room: pathlib.Path) -> str:
    folder = pathlib.Path(os.environ["WAKHURMI"]).resolve() if os.environ.get("WAKHURMI") else room / "library"
    if not os.environ.get("WAKHURMI"):
        measure.skip_without("rt", "cc")
        subprocess.run([measure.TOP / "c/build.sh", folder], check=True)
    source, program = measure.PROGRAMS / "c_plan/c_plan.c", room / "c_plan"
    subprocess.run(["cc", "-O2", source, "-o", program, f"-I{folder}", f"-L{folder}", "-lwakhurmi", "-pthread"], check=True)
    return str(program)


def times(program: str, *words: object) -> tuple[float, float]:
    """Nanoseconds by the clock and of processor, medians."""
    said = [subprocess.run([program, *map(str, words)], stdout=subprocess.PIPE, text=True, check=True).stdout for _ in range(TURNS)]
    clock, processor = zip(*([float(number) for number in re.findall(r"(\d+) ns", text)] for text in said))
    return statistics.median(clock), statistics.median(processor)


def check(leases: str, folder: pathlib.Path, number: int) -> int:
    """The entries of a history that `leases check` finds lawful."""
    history = (folder / f"{number}.txt").read_text()
    entries = history.count("\n") - 3
    streams = {"stdout": subprocess.PIPE, "stderr": subprocess.STDOUT, "text": True}
    ran = subprocess.run([leases, "check", f"{number}.toml"], input=history, cwd=folder, check=False, **streams)
    if (ran.returncode, ran.stdout) != (0, f"lawful {entries}\n"):
        sys.exit(f"leases check: {ran.stdout}")
    return entries


def drive_some(program: str, leases: str, first: int, count: int) -> int:
    """Drives plans with these numbers, and answers with how many entries they have."""
    with tempfile.TemporaryDirectory() as name:
        folder = pathlib.Path(name)
        made = subprocess.run([program, "history", str(count), "0", str(first)], stdout=subprocess.PIPE, text=True, check=False)
        if made.returncode != 0:
            sys.exit(f"plans {first} to {first + count - 1}: status {made.returncode}")
        told = subprocess.run([str(REPLAY), "--toml", name], input=made.stdout, stdout=subprocess.PIPE, stderr=subprocess.STDOUT, text=True, check=False)
        replayed = re.fullmatch(rf"{count} histories, (\d+) entries: lawful\n", told.stdout)
        if replayed is None:
            sys.exit(f"plans from {first} on: {told.stdout}")
        with concurrent.futures.ThreadPoolExecutor(os.cpu_count()) as pool:
            checked = sum(pool.map(lambda number: check(leases, folder, number), range(count)))
        if checked != int(replayed[1]):
            sys.exit(f"plans from {first} on: {replayed[1]} entries are replayed, and {checked} checked")
        return checked


def drive(program: str, leases: str, plans: int) -> None:
    begin, entries = time.monotonic(), 0
    for first in range(0, plans, AT_ONCE):
        entries += drive_some(program, leases, first, min(AT_ONCE, plans - first))
    print(f"{plans} random plans on 1 to 32 threads came to their outcomes; {entries} entries, replayed and checked: lawful; {time.monotonic() - begin:.0f} s")


def measure_plans(program: str) -> None:
    alone, four = (times(program, "items", threads, ITEMS)[0] for threads in (1, 4))
    print(f"an item that does nothing: {alone:.0f} ns on one thread, {verdict(alone, MOST_ALONE)}")
    print(f"on four: {four:.0f} ns, {four / alone:.2f} times as long, {verdict(four / alone, MOST_ON_FOUR)}")
    one, many = (times(program, "items", threads, LONG_ITEMS, LENGTH)[1] for threads in (1, 32))
    print(f"items of {LENGTH} microseconds: {one:.0f} ns of processor on one thread, {many:.0f} on 32, {verdict(many / one, MOST_PROCESSOR)}")
    for threads in (4, 32):
        counted = measure.count_system_calls([program, "items", str(threads), str(LONG_ITEMS), str(LENGTH)])
        calls = counted.get("futex", 0) / LONG_ITEMS
        print(f"{threads} threads: {calls:.3f} calls of futex an item, {verdict(calls, MOST_FUTEX)}")
    used = measure.usage_of([program, "tasks", str(THREADS), str(TASKS)])
    print(f"{TASKS} tasks on {THREADS} threads: {used.seconds:.1f} s of processor, peak {used.kilobytes / 1024:.0f} MB, status {used.status}")


def main() -> None:
    words = argparse.ArgumentParser()
    words.add_argument("--random", type=int, metavar="PLANS")
    words.add_argument("--leases", default=str(measure.TOP / "out/leases"), metavar="PROGRAM")
    asked = words.parse_args()
    measure.skip_without("cc")
    with tempfile.TemporaryDirectory() as folder:
        program = built(pathlib.Path(folder))
        if asked.random is None:
            measure_plans(program)
        elif os.access(asked.leases, os.X_OK):
            drive(program, str(pathlib.Path(asked.leases).resolve()), asked.random)
        else:
            sys.exit(f"there is no program {asked.leases}: run ./leases once")


if __name__ == "__main__":
    main()
