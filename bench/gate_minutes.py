#!/usr/bin/env python3
"""Runs the gate, and prints how many minutes of a processor each crate took: its proof, its tests and its edits.

Starts `rt ci` with the given words in the current folder, passes its output through, and looks twice a second at the
processes below it, each of which works for one crate. At the end it prints a table, the longest crate first, and ends
with the status of `rt ci`. At the signal USR1 it prints the table so far, and at TERM too, before it ends `rt ci`.
Some kits keep on the machine what `rt ci` passed, and take crates by name: there --anew does all again. The others do all
in each run, and are given no words.
Not part of the gate. Works on Linux alone.

    bench/gate_minutes.py [--anew] [CRATE..]

Measured: docs/MEASURED.md has the table.
"""

import collections
import os
import pathlib
import re
import resource
import signal
import subprocess
import sys
import time

INTERVAL = 0.5
KINDS = ["proof", "tests", "edits"]
TICKS = os.sysconf("SC_CLK_TCK")

# The budgets in minutes: a crate, and one check of it.
MOST_A_CRATE = 8
MOST_A_CHECK = 3


class Process:
    """What /proc says of a process: its parent, and the seconds of itself and of its children that have ended."""

    def __init__(self, number: int) -> None:
        text = pathlib.Path(f"/proc/{number}/stat").read_text()
        # The name in parentheses may have spaces.
        fields = text[text.rindex(")") + 2 :].split()
        self.parent = int(fields[1])
        self.seconds = sum(int(field) for field in fields[11:15]) / TICKS
        self.key = (number, fields[19])


def processes() -> dict[int, Process]:
    found = {}
    for name in filter(str.isdigit, os.listdir("/proc")):
        try:
            found[int(name)] = Process(int(name))
        except OSError:
            pass
    return found


def work_of(number: int) -> tuple[str, str] | None:
    """The crate and the kind of work that a process is for, by its words and its folder; none where they name no crate."""
    try:
        words = pathlib.Path(f"/proc/{number}/cmdline").read_bytes().decode(errors="replace").split("\0")
        folder = os.readlink(f"/proc/{number}/cwd")
    except OSError:
        return None
    line = " ".join(words)
    ran = re.search(r"/rt-run-[^/]*/bin/(\w+)", line)
    if ran is not None:
        return ran.group(1).removesuffix("_tests"), "tests"
    if "--crate-name" not in words:
        return None
    crate = words[words.index("--crate-name") + 1]
    if "/rt-edit-" in folder or "/rt-edits-" in line:
        return crate, "edits"
    return crate, "tests" if "--test" in words else "proof"


class Sampler:
    """The seconds of each process that works for a crate, as they were when it was seen last."""

    def __init__(self) -> None:
        self.seconds: dict[tuple[int, str], float] = {}
        self.works: dict[tuple[int, str], tuple[str, str]] = {}

    def look(self, top: int) -> None:
        found = processes()
        below = collections.defaultdict(list)
        for number, process in found.items():
            below[process.parent].append(number)
        waiting = list(below[top])
        while waiting:
            number = waiting.pop()
            key = found[number].key
            work = self.works.get(key) or work_of(number)
            if work is None:
                waiting += below[number]
                continue
            self.works[key] = work
            self.seconds[key] = max(self.seconds.get(key, 0), whole(number, found, below))

    def by_crate(self) -> dict[str, dict[str, float]]:
        crates = collections.defaultdict(lambda: dict.fromkeys(KINDS, 0.0))
        for key, (crate, kind) in self.works.items():
            crates[crate][kind] += self.seconds[key]
        return crates


def whole(number: int, found: dict[int, Process], below: dict[int, list[int]]) -> float:
    """The seconds of a process and of all below it."""
    return found[number].seconds + sum(whole(child, found, below) for child in below[number])


def print_table(crates: dict[str, dict[str, float]], all_seconds: float | None, passed: float) -> None:
    def row(name: str, kinds: list[float]) -> None:
        print("| " + " | ".join([name, *(f"{seconds / 60:.1f}" for seconds in (*kinds, sum(kinds)))]) + " |")

    print("\n| Crate | " + " | ".join(kind.capitalize() for kind in KINDS) + " | Together |")
    print("|---" * (len(KINDS) + 2) + "|")
    rows = {name: [kinds[kind] for kind in KINDS] for name, kinds in crates.items()}
    for name in sorted(rows, key=lambda name: -sum(rows[name])):
        row(name, rows[name])
    row("all", [sum(column) for column in zip(*rows.values())] or [0.0] * len(KINDS))
    seen = sum(map(sum, rows.values()))
    if all_seconds is None:
        print(f"\nMinutes of a processor, after {passed / 60:.1f} minutes.", flush=True)
        return
    print(
        f"\nMinutes of a processor. rt ci took {all_seconds / 60:.1f} of them in {passed / 60:.1f} minutes; the"
        f" {(all_seconds - seen) / 60:.1f} that aren't in the table are its own work and what ended unseen."
    )
    over = [name for name in sorted(rows) if sum(rows[name]) > MOST_A_CRATE * 60]
    long = [name for name in sorted(rows) if max(rows[name][:2]) > MOST_A_CHECK * 60]
    print(f"Over the budget of {MOST_A_CRATE} minutes a crate: {', '.join(over) or 'none'}.")
    print(f"With a proof or tests over {MOST_A_CHECK} minutes: {', '.join(long) or 'none'}.")


def words_for_gate(given: list[str]) -> list[str]:
    """The given words, without --anew where the kit's `rt ci` does all in each run."""
    help_text = subprocess.run(["rt", "help"], capture_output=True, text=True, check=False)
    if "--anew" in help_text.stdout + help_text.stderr:
        return given
    return [word for word in given if word != "--anew"]


def main() -> None:
    start = time.monotonic()
    gate = subprocess.Popen(["rt", "ci", *words_for_gate(sys.argv[1:])])
    sampler = Sampler()

    def print_so_far(*_: object) -> None:
        print_table(sampler.by_crate(), None, time.monotonic() - start)

    def end_early(*_: object) -> None:
        gate.terminate()
        print_so_far()
        sys.exit(1)

    signal.signal(signal.SIGUSR1, print_so_far)
    signal.signal(signal.SIGTERM, end_early)
    while gate.poll() is None:
        sampler.look(gate.pid)
        time.sleep(INTERVAL)
    used = resource.getrusage(resource.RUSAGE_CHILDREN)
    print_table(sampler.by_crate(), used.ru_utime + used.ru_stime, time.monotonic() - start)
    sys.exit(gate.returncode)


if __name__ == "__main__":
    main()
