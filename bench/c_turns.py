#!/usr/bin/env python3
"""Measures in C how locks that several threads want come round: the rounds of each thread, and the longest wait.

bench/programs/c_turns runs with 8 and 32 threads over two locks, with work of 2 microseconds to 1 millisecond under the lock, by a
service and by a plain mutex for each lock. Then one thread enters and leaves blocking sections with a lock that all others, 7 or 31, take
again and again. Then eight threads have a lock each, most of the time, and a ninth takes all eight at once. Each row of a service is judged: the
fewest rounds of a thread are at least half the most, and no take and no leave waits for longer than 100 ms, the ninth thread's too.

The archive is made by c/build.sh, which proves crates/wakhurmi_c where that is still to be done and WAKHURMI_PROVED names none. That takes many minutes.
Not part of the gate.

    bench/c_turns.py [SECONDS]

SECONDS is for each row, 3 where it isn't given.

Measured with the proved archive in three runs on four processors of 2.5 GHz with no other work, of 2, 3 and 3 seconds a row: by a service the fewest
rounds of a thread are 0.62 to 0.98 of the most, and no take waits longer than 77 ms; by mutexes 0.15 to 0.89, and 1.4 s. With blocking sections 0.70 to
0.98, and 77 ms. The ninth thread has half as many rounds as the others have at most, and waits 20 ms at most. Of five earlier runs with an unproved
archive one had takes that waited 400 ms. Why isn't known.
"""

import pathlib
import subprocess
import sys
import tempfile

import measure

TOP = measure.TOP
SECONDS = sys.argv[1] if len(sys.argv) > 1 else "3"
LENGTHS = {"2 us": 2_000, "20 us": 20_000, "1 ms": 1_000_000}

# In milliseconds.
LONGEST = 100


def build(folder: pathlib.Path) -> pathlib.Path:
    # What it says stands beside the rows: where it proves, that is all there is for many minutes.
    subprocess.run([str(TOP / "c/build.sh"), str(folder)], check=True, stdout=sys.stderr)
    program = folder / "c_turns"
    source = TOP / "bench/programs/c_turns/c_turns.c"
    words = ["cc", "-O2", "-Wall", "-Wextra", "-Werror", f"-I{folder}", str(source), "-o", str(program), f"-L{folder}", "-lwakhurmi", "-pthread"]
    subprocess.run(words, check=True)
    return program


def turns(program: pathlib.Path, kind: str, threads: int, locks: int, length: int) -> list[int]:
    words = [str(program), kind, str(threads), str(locks), str(length), SECONDS]
    return [int(word) for word in subprocess.run(words, check=True, capture_output=True, text=True).stdout.split()]


def are_fair(program: pathlib.Path) -> bool:
    """Whether threads that take and hand back come round."""
    met = True
    print("| Threads | Work | By | Rounds | Fewest | Most | Longest wait, ms |\n|---|---|---|---|---|---|---|")
    for threads in (8, 32):
        for length, nanoseconds in LENGTHS.items():
            for kind in ("service", "mutex"):
                rounds, fewest, most, _, longest, _ = turns(program, kind, threads, 2, nanoseconds)
                print(f"| {threads} | {length} | {kind} | {rounds} | {fewest} | {most} | {longest / 1000:.1f} |", flush=True)
                if kind == "service":
                    met = met and longest <= LONGEST * 1000 and fewest * 2 >= most
    return met


def are_left(program: pathlib.Path) -> bool:
    """Whether a thread that leaves sections comes round among others that take its lock."""
    met = True
    print("\n| Threads | Work | Its rounds | Fewest | Most | Its longest wait, ms | Longest wait, ms |\n|---|---|---|---|---|---|---|")
    for threads in (8, 32):
        for length, nanoseconds in LENGTHS.items():
            _, fewest, most, own, longest, own_longest = turns(program, "leaving", threads, 1, nanoseconds)
            print(f"| {threads} | {length} | {own} | {fewest} | {most} | {own_longest / 1000:.1f} | {longest / 1000:.1f} |", flush=True)
            met = met and longest <= LONGEST * 1000 and fewest * 2 >= most
    return met


def main() -> None:
    measure.skip_without("rt", "cc", "ar")
    with tempfile.TemporaryDirectory() as name:
        program = build(pathlib.Path(name))
        met = are_fair(program)
        met = are_left(program) and met
        _, _, most, first, _, longest = turns(program, "several", 9, 8, 1_500_000)
        print(f"\nOne that takes eight locks: {first} rounds, where the others had at most {most}; its longest wait {longest / 1000:.1f} ms.")
        met = met and longest <= LONGEST * 1000
    print("met: yes" if met else "met: no")


main()
