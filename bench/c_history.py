#!/usr/bin/env python3
"""Measures in C what it takes to have a history taken while its service runs.

* Memory: eight threads take and hand back, and a ninth takes the history each 10 ms, into two parts by turns. Judged: at most 20 MB over what
  the process began with. There are three rooms for entries, the service's and those of both parts, and each stays as large as it had to be
  once. So the longest time from a taking to the next decides, which is longer than 10 ms where the ninth thread has to wait for a processor.
  Beside it a service that keeps its last entries alone, from which nobody takes.
* The hold: the instructions that the proved library makes for a taking of 100, 10,000 and 100,000 entries, by callgrind. Judged: they are
  equal. Beside them its nanoseconds, and those where the old part has as many entries.
* The longest call of eight threads that work, with nobody who takes and with one who does so each millisecond. Not judged, as the system's turns are
  longer than both.
* The instructions of a take and a hand-back of one thread without anybody who takes. With BESIDE, a folder with another libwakhurmi.a, they
  are judged beside that one's: at most 1 in 100 more.

The archive is made by c/build.sh, which proves crates/wakhurmi_c where that is still to be done. Not part of the gate.

    bench/c_history.py [--whole] [BESIDE]

Ten million rounds, or 100 million with --whole.
"""

import os
import pathlib
import re
import shutil
import subprocess
import sys
import tempfile

import measure

TOP = measure.TOP
WORDS = [word for word in sys.argv[1:] if word != "--whole"]
ROUNDS = 100_000_000 if "--whole" in sys.argv else 10_000_000
THREADS = 8
TAKE_EACH = 10_000
KEPT = 10_000
ENTRIES = (100, 10_000, 100_000)
FEWER, MORE = 5_000, 10_000

# In kilobytes, and in hundredths.
MOST_MEMORY = 20_000
MOST_INSTRUCTIONS = 101


def build(folder: pathlib.Path) -> None:
    subprocess.run([str(TOP / "c/build.sh"), str(folder)], check=True, stdout=subprocess.DEVNULL)


def program(name: str, archive: pathlib.Path, to: pathlib.Path) -> pathlib.Path:
    source = TOP / f"bench/programs/{name}/{name}.c"
    words = ["cc", "-O2", "-Wall", "-Wextra", "-Werror", f"-I{archive}", str(source), "-o", str(to), f"-L{archive}", "-lwakhurmi", "-pthread"]
    subprocess.run(words, check=True)
    return to


def numbers(made: pathlib.Path, *words: object) -> list[float]:
    said = subprocess.run([str(made), *map(str, words)], check=True, capture_output=True, text=True).stdout
    return [float(word) for word in said.split()]


def instructions(folder: pathlib.Path, words: list[object], *flags: str) -> int:
    tool = ["valgrind", "--tool=callgrind", f"--callgrind-out-file={folder}/callgrind", *flags]
    settings = {**os.environ, **measure.STEPWISE}
    ran = subprocess.run([*tool, *map(str, words)], check=True, capture_output=True, text=True, env=settings)
    return int(re.search(r"Collected : (\d+)", ran.stderr)[1])


def judge(holds: bool) -> str:
    judge.met = judge.met and holds
    return "yes" if holds else "no"


judge.met = True


def measure_memory(taking: pathlib.Path) -> None:
    kilobytes, parts, entries, longest = numbers(taking, "memory", THREADS, ROUNDS, TAKE_EACH)
    goal = judge(kilobytes <= MOST_MEMORY)
    print(f"{entries:.0f} entries, {parts:.0f} takings, the longest {longest / 1000:.0f} ms behind the last: "
          f"{kilobytes / 1000:.1f} MB more than at the beginning, goal 20, met: {goal}", flush=True)
    kilobytes, _, entries, _ = numbers(taking, "kept", THREADS, ROUNDS, KEPT)
    print(f"{entries:.0f} entries, the last {KEPT} kept: {kilobytes / 1000:.1f} MB more", flush=True)


def measure_hold(taking: pathlib.Path, folder: pathlib.Path, counts: bool) -> None:
    held = []
    for entries in ENTRIES:
        empty, full = numbers(taking, "hold", entries)
        print(f"{entries} entries: {empty:.0f} ns, into an old part with as many {full:.0f} ns", flush=True)
        if counts:
            held.append(instructions(folder, [taking, "hold", entries], "--toggle-collect=wakhurmi_c_take_history"))
    if counts:
        print(f"instructions inside, of all takings: {held}, equal: {judge(len(set(held)) == 1)}", flush=True)


def measure_waits(taking: pathlib.Path) -> None:
    for period in (0, 1000):
        longest, most, calls = numbers(taking, "waits", THREADS, 3, period)
        taker = "one takes each millisecond" if period else "nobody takes"
        print(f"{taker}: {calls:.0f} calls, 999 in 1,000 within {most:.0f} us, the longest {longest:.0f} us", flush=True)


def per_round(rounds: pathlib.Path, folder: pathlib.Path) -> float:
    few, many = (instructions(folder, [rounds, "time", 1, count]) for count in (FEWER, MORE))
    return (many - few) / (MORE - FEWER)


def main() -> None:
    measure.skip_without("rt", "cc", "ar")
    with tempfile.TemporaryDirectory() as name:
        folder = pathlib.Path(name)
        build(folder / "made")
        taking = program("c_taking", folder / "made", folder / "c_taking")
        counts = shutil.which("valgrind") is not None
        measure_memory(taking)
        measure_hold(taking, folder, counts)
        measure_waits(taking)
        if not counts:
            print("instructions: passed over, there is no valgrind")
            return
        ours = per_round(program("c_rounds", folder / "made", folder / "ours"), folder)
        print(f"a take and a hand-back: {ours:.1f} instructions", flush=True)
        if WORDS:
            theirs = per_round(program("c_rounds", pathlib.Path(WORDS[0]), folder / "theirs"), folder)
            print(f"beside: {theirs:.1f} instructions, met: {judge(ours * 100 <= theirs * MOST_INSTRUCTIONS)}")
    print("met: yes" if judge.met else "met: no")


main()
