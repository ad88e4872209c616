#!/usr/bin/env python3
"""Says where the instructions of a unit go: by crate, and by function for those that take the most.

Runs the three plans of bench/peer.py on one thread under callgrind, which counts from where the workers begin to where they end, without what
answers an item from its file. Each function counts alone, without what it calls, but with what the compiler has put into it. Two functions of
one name, such as those of a generic one, count together. Not part of the gate. Skips, with status 0, where valgrind is missing.

    bench/unit_parts.py [PROGRAM]

Measured: a chain's task takes 5,892 instructions of its worker: `coordination` with the book's entry 2,117, `build_workers` 1,466, `ready_work` 1,023,
`lock_transforms` 929, `worker_choices` 194, `lock_journal` 132. A small item 2,509: 1,062, 644, 250, 378, 87 and 81. An item of contended locks 2,764:
1,211, 715, 260, 389, 95 and 84.
"""

import collections
import pathlib
import re
import subprocess
import tempfile

import measure
import peer
import runs

# How many functions are told, the greatest first.
TOLD = 16

# From the name of a function what tells it apart, without what it is an instance of.
INSTANCE = re.compile(r"(::)?<.*>$|\+.*$|'\d+$")


def exclusive(profile: pathlib.Path) -> collections.Counter[str]:
    """The instructions of each function alone."""
    call = ["callgrind_annotate", "--threshold=100", str(profile)]
    table = subprocess.run(call, capture_output=True, text=True, check=True).stdout
    counts: collections.Counter[str] = collections.Counter()
    for count, name in re.findall(r"^\s*([\d,]+) \([ \d.]+%\)\s+[^\s:]*:(\S+)", table, re.MULTILINE):
        counts[INSTANCE.sub("", name)] += int(count.replace(",", ""))
    return counts


def count(program: str, plan: peer.Measured, folder: pathlib.Path) -> collections.Counter[str]:
    """The instructions of each function while workers work."""
    (folder / "plan.toml").write_text(plan.text)
    profile = folder / "callgrind.out"
    toggles = [f"--toggle-collect=*{name}*" for name in (runs.RUN_OF_THE_WORKERS, runs.READING_OF_FILES)]
    tool = ["valgrind", "--tool=callgrind", f"--callgrind-out-file={profile}", *toggles]
    measure.run_under(tool, [program, *peer.run_words(1), "--summary"], folder=folder, settings=measure.STEPWISE)
    return exclusive(profile)


def report(name: str, plan: peer.Measured, counts: collections.Counter[str]) -> None:
    crates: collections.Counter[str] = collections.Counter()
    for function, taken in counts.items():
        crates[function.split("::")[0] if "::" in function else "the C library"] += taken
    print(f"\n{name}: {counts.total() / plan.units:,.0f} instructions of the workers a unit")
    print("| Crate | A unit |\n|---|---|")
    for crate, taken in crates.most_common():
        if taken >= plan.units:
            print(f"| {crate} | {taken / plan.units:,.0f} |")
    print("\n| Function | A unit |\n|---|---|")
    for function, taken in counts.most_common(TOLD):
        print(f"| {function} | {taken / plan.units:,.0f} |")


def main() -> None:
    measure.skip_without("valgrind")
    program = measure.leases_program()
    with tempfile.TemporaryDirectory() as made:
        folder = pathlib.Path(made)
        peer.make_files(folder)
        for name, plan in peer.PLANS.items():
            report(name, plan, count(program, plan, folder))


if __name__ == "__main__":
    main()
