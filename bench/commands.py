#!/usr/bin/env python3
"""Counts what `leases make` takes a byte, and what `leases check` takes an entry of a history.

Makes a plan by `make`, runs it on one thread, and has half of the printed history checked and all of it. The plan's reading is
counted with an empty input and left out. Then lawful histories of 32 and 64 MiB are checked, in which one worker takes and gives
back the same locks all the time, and their time and peak memory are told. Makes its files in a temporary folder. Not part of the
gate. Skips, with status 0, where valgrind, strace or GNU time is missing.

    bench/commands.py [PROGRAM]

Measured: `make` takes 3.7 instructions a byte (goal 60), `check` 1,811 an entry by a file and 2,973 by a pipe (goal 1,500), 340 less by a pipe
since it counts on the shortest line of an entry (an unproved build). 64 MiB take 0.2 s and 2.0 MB by a file. 166 reads for 9,600 entries
by a file, 53,708 by a pipe.
"""

import pathlib
import subprocess
import tempfile

import measure

MOST_A_BYTE = 60
MOST_AN_ENTRY = 1_500
MOST_KILOBYTES = 10_000
MIB = 2**20

PLAN_OF_TWO_LOCKS = """project = [{ name = "app" }, { name = "lib" }]
task = [{ name = "a", project = "app" }]
"""

# What one worker does over and over.
ENTRIES = [
    "acquire | lock 0, lock 1, take",
    "block - | give, unlock 0, park 0, unlock 1, park 1, enter",
    "unblock - | leave, unpark 1, lock 1, unpark 0, lock 0, take",
    "handback | unlock 0, unlock 1, give",
]


def repeated_history(most: int) -> tuple[int, bytes]:
    """A lawful history of about so many bytes, and how many entries it has."""
    lines, size = ["history 1\n", "workers 1 max 1 parallel yes\n"], 0
    while size < most - 200:
        lines.append(f"{len(lines) - 1} w0 {ENTRIES[(len(lines) - 2) % len(ENTRIES)]}\n")
        size += len(lines[-1])
    entries = len(lines) - 2
    return entries, "".join([*lines, f"end {entries}\n"]).encode()


def made_run(program: str, folder: pathlib.Path) -> bytes:
    """Makes a plan in the folder, and runs it on one thread. Its history."""
    (folder / "a.txt").write_text("one\ntwo\n")
    plan = subprocess.run([program, "make", "7", "a.txt"], cwd=folder, capture_output=True, check=True).stdout
    (folder / "plan.toml").write_bytes(plan)
    run = [program, "run", "plan.toml", "--max-workers", "1", "--threads", "1", "--history"]
    printed = subprocess.run(run, cwd=folder, capture_output=True, check=False).stdout
    return measure.split_history(printed.decode())[1].encode()


def check_large(program: str, folder: pathlib.Path) -> None:
    (folder / "plan.toml").write_text(PLAN_OF_TWO_LOCKS)
    for size in [32 * MIB, 64 * MIB]:
        entries, text = repeated_history(size)
        (folder / "history.txt").write_bytes(text)
        usage = measure.usage_of(["sh", "-c", f'exec "{program}" check plan.toml < history.txt'], folder)
        print(
            f"check: {entries} entries in {len(text)} bytes, {usage.seconds:.1f} s, peak memory {usage.kilobytes} KB"
            f" (goal: at most {MOST_KILOBYTES})"
        )


def main() -> None:
    measure.skip_without("valgrind", "strace", "time")
    program = measure.leases_program()
    with tempfile.TemporaryDirectory() as name:
        folder = pathlib.Path(name)
        history = made_run(program, folder)
        count, plan = measure.count_instructions([program, "make", "7", "a.txt"], folder=folder)
        print(f"make: {count / len(plan):.1f} instructions a byte (goal: at most {MOST_A_BYTE})")
        lines = history.splitlines(keepends=True)[:-1]
        check = [program, "check", "plan.toml"]
        reading, _ = measure.count_instructions(check, folder=folder)
        for part in [2, 1]:
            text = b"".join(lines[: len(lines) // part])
            entries = text.count(b"\n") - 2
            for by_file in [True, False]:
                how = {"folder": folder, "given": text, "by_file": by_file}
                count, _ = measure.count_instructions(check, **how)
                reads = measure.count_system_calls(check, **how).get("read", 0)
                print(
                    f"check: {entries} entries of {len(text) / entries:.0f} bytes by a {'file' if by_file else 'pipe'},"
                    f" {(count - reading) / entries:.0f} instructions an entry (goal: at most {MOST_AN_ENTRY}),"
                    f" {reads / entries:.2f} reads an entry"
                )
        check_large(program, folder)


if __name__ == "__main__":
    main()
