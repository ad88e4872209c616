#!/usr/bin/env python3
"""Refuses memory at many places of a run, one place a run, and judges what the run answers.

Copies the crates into a temporary folder, adds a small program that makes the program's own call on desks in memory with
three threads, and has `rt try` run it: once on an interpreter and once compiled with checks. In each case another
allocation of the run fails. The run has to answer NoMemory and write nothing, or to end with one unit that had no memory,
or, where nothing was refused, with no such unit. Nothing is proved here, and nothing may hang. Not part of the gate.

    bench/starved.py [FIRST LAST STEP]

The numbers say which allocations fail. The program's first ones make the desks, and then come those of the run. A place behind the run's last
allocation is answered by "nothing was refused", so the answers tell whether the numbers reach over the whole run.

Measured: of 122 places of a run 91 were answered with NoMemory and nothing written, and five left one unit without memory. The others lie
behind its last allocation.
"""

import dataclasses
import pathlib
import re
import subprocess
import sys
import tempfile

import measure

PROGRAM = "starved_run"
LIBRARIES = ["item_actions", "file_access", "memory_files", "memory_desk", "leases_cli"]
# The allocation that fails. A case makes as many before the run as are needed for it to be another one of the run.
FAILING = 3000
NO_MEMORY = 10
NOTHING_BEGUN = 99


@dataclasses.dataclass
class Case:
    """A place, how its two runs ended, and what was printed: by both, or by one where they differ."""

    place: int
    end: str
    printed: str

    def units_without_memory(self) -> int:
        return len(re.findall(r"(?m)^  .* no memory$", self.printed))

    def answer(self) -> str:
        """What the run answered; a text that begins with WRONG where it may not."""
        if self.end == f"ended status={NOTHING_BEGUN}":
            return "no desks were made"
        if self.end == f"ended status={NO_MEMORY}":
            return "WRONG: NoMemory, and a text" if self.printed else "NoMemory, and nothing written"
        if self.end not in ("ended status=1", "differs") or "total: " not in self.printed:
            return f"WRONG: {self.end}"
        count = self.units_without_memory()
        return ["nothing was refused", "one unit without memory"][count] if count < 2 else f"WRONG: {count} units"


def read_cases(said: str) -> list[Case]:
    """The cases that `rt try` tells of: each text up to its line `case=`."""
    cases = []
    for text, place, end in re.findall(r"(?ms)(.*?)^case=p(\d+) run=(.*?)(?: runners=.*?)? proved=no$", said):
        lines = [line.removeprefix("| ") for line in text.splitlines()]
        ours = [line for line in lines if re.match(r"task |  |tasks: |units: |total: ", line)]
        cases.append(Case(int(place), end, "\n".join(ours)))
    return cases


def try_places(folder: pathlib.Path, places: range) -> list[Case]:
    cases = folder / "cases"
    cases.mkdir()
    for place in places:
        (cases / f"p{place:04}").write_text(f"{FAILING - place}\n")
    words = ["rt", "try", "--fail-alloc", str(FAILING), "--cases", str(cases)]
    # What the program printed comes on one stream, and what is said of the case on the other.
    how = {"stdout": subprocess.PIPE, "stderr": subprocess.STDOUT, "text": True}
    run = subprocess.run(words, cwd=folder / "crates" / PROGRAM, **how)
    return read_cases(run.stdout)


def main() -> None:
    measure.skip_without("rt")
    first, last, step = map(int, sys.argv[1:]) if len(sys.argv) > 1 else (204, 548, 6)
    places = range(first, last, step)
    crates = [line.split(":")[0] for line in (measure.TOP / "crates.txt").read_text().splitlines()]
    with tempfile.TemporaryDirectory() as name:
        workshop = measure.Workshop(pathlib.Path(name), [crate for crate in crates if crate and not crate.startswith("#")])
        workshop.add(PROGRAM, *LIBRARIES)
        cases = try_places(workshop.folder, places)
    answers = [case.answer() for case in cases]
    for answer in sorted(set(answers)):
        found = [case.place for case, given in zip(cases, answers) if given == answer]
        print(f"{len(found)} of {len(places)} places: {answer} ({found[0]} to {found[-1]})")
    if len(cases) < len(places) or any(answer.startswith("WRONG") for answer in answers):
        sys.exit(1)


if __name__ == "__main__":
    main()
