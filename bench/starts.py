#!/usr/bin/env python3
"""Counts what the program takes to start: words that it refuses, and a run of a plan with one task and no unit.

The counts are parted by whose code it is: the system's loader, the C library, the crates that read words and plans, and all else.
Makes its files in a temporary folder. Not part of the gate. Skips, with status 0, where valgrind is missing.

    bench/starts.py [PROGRAM]

Measured: refused words 194,246 instructions, 160,987 of them the loader's; a run of one task 292,910: 161,841 the loader, 84,350 the C
library, 13,644 words, 11,997 the plan, 21,078 all else (goal 200,000).

The loader's are out of reach here: 103,000 relocate, mostly for 52 symbols, which the kit's link has bound at the start. So all else would have to
take 38,000 in place of 131,000. By callgrind, with what each calls (an unproved build that released its memory, 316,254): `leases_cli::top::run`
70,000, of these the plan's reading 37,700, the book with its index 14,600, the fork with what the first thread does 9,200; the words of `run` 35,200,
of these `clap`'s walk over one word with eight parameters 19,300 and the grammar, which is that of the one command alone, 6,000. In all of these
35,200 take memory and 19,700 give it back, and 16,500 clear two buffers of the kit, 4,100 the page, and 4,100 the buffer of the plan's file (`rep
stosb`, which callgrind counts by the byte). Nothing else is over 5,000.
"""

import collections
import pathlib
import re
import subprocess
import tempfile

import measure

MOST_INSTRUCTIONS = 200_000

PLAN = """project = [{ name = "app" }]
task = [{ name = "a", project = "app" }]
"""

# The parts, and what the names of their functions, files and libraries have in them. The first that fits counts.
PARTS = {
    "the loader": r"ld-linux|/elf/|/dl-",
    "the C library": r"libc\.so|\./(malloc|string|nptl|stdlib|io)/",
    "words": r"clap|command_words",
    "plans": r"toml|plan_",
    "all else": r"",
}


def parts_of(profile: str) -> collections.Counter[str]:
    """How many instructions each part took, by callgrind's own list of functions."""
    listed = subprocess.run(["callgrind_annotate", "--threshold=100", profile], capture_output=True, text=True, check=True)
    counts: collections.Counter[str] = collections.Counter()
    for line in listed.stdout.splitlines():
        row = re.fullmatch(r"\s*([\d,]+) \([ \d.]+%\)\s+(\S.*)", line)
        if row is not None and row.group(2) != "PROGRAM TOTALS":
            part = next(part for part, names in PARTS.items() if re.search(names, row.group(2)))
            counts[part] += int(row.group(1).replace(",", ""))
    return counts


def main() -> None:
    measure.skip_without("valgrind")
    program = measure.leases_program()
    with tempfile.TemporaryDirectory() as name:
        folder = pathlib.Path(name)
        (folder / "plan.toml").write_text(PLAN)
        profile = str(folder / "profile")
        for what, words in {"refused words": ["nonsense"], "a run of one task": ["run", "plan.toml"]}.items():
            count, _ = measure.count_instructions([program, *words], folder=folder, profile=profile)
            listed = ", ".join(f"{part} {taken:,}" for part, taken in parts_of(profile).most_common())
            print(f"{what}: {count:,} instructions (goal: at most {MOST_INSTRUCTIONS:,}): {listed}")


if __name__ == "__main__":
    main()
