#!/usr/bin/env python3
"""Runs `rt plant` over crates, in given minutes, and prints what their contracts let through.

    bench/plant.py [--minutes N] [--crate-minutes N] [--max N] [--jobs N] --since COMMIT | --all | CRATE..

--since takes the crates whose contracts (specs, clauses, signatures) aren't those of a commit. `rt plant` begins with a check of the
crate, over the libraries below it. These are taken from what the launcher built here (`launch/build.py --prove CRATE`), or else from what
the gate kept on this machine. So one of them must have proved the crates as they stand here: a crate over others of which nothing is
kept is named at the end and left alone, and so is one for which the time (an hour, if --minutes isn't given) doesn't suffice. The
crates that are proved soonest come first. Each is tried for at most --crate-minutes (10) behind its first check, with at most --max
(400) wrong bodies. A body that calls itself may be listed as proved: no measure is asked for here, where the prover wants one.

Each crate is tried in a folder of its own beside the system's other temporary ones. The repository is only read. Not part of the
gate.
"""

import argparse
import os
import pathlib
import shutil
import signal
import subprocess
import sys
import tempfile
import time
import types
from typing import Dict, List, Optional

TOP = pathlib.Path(__file__).resolve().parent.parent
sys.dont_write_bytecode = True
sys.path.insert(0, str(TOP / "launch"))
import beside  # noqa: E402
import schedule  # noqa: E402

PARTS = ("src", "specs", "proofs", "c")
CHECKED = "out/incremental"

# What `rt plant` says of a wrong body, or of a function without a clause, that the contracts let through.
LETS_THROUGH = ("proves", "no-ensures", "untested")


class NotKept(Exception):
    """A crate of which nothing is kept."""


def load_rt() -> types.ModuleType:
    file = shutil.which("rt")
    rt = beside.load(file) if file is not None else None
    if rt is None:
        sys.exit("plant: there is no command rt on the path, or it isn't the kit's script")
    return rt


def contracts(rt: types.ModuleType, folder: pathlib.Path) -> List[str]:
    """What a crate states: its specs, the clauses and ghost items of its code, and the functions' signatures."""
    found: List[str] = []
    rt.rtlib.blanked.cache_clear()
    for file, text in rt.rtlib.blanked(str(folder)).items():
        if file.endswith(".antt"):
            found.append(text)
            continue
        found += [head + braces for head, braces in rt.rtlib.ghost_texts(text)]
        found += [row.partition("{")[0].partition(";")[0] for row in text.split("fn ")[1:]]
    return sorted("".join(text.split()) for text in found)


def changed_since(rt: types.ModuleType, commit: str, names: List[str]) -> List[str]:
    with tempfile.TemporaryDirectory(prefix="plant-") as old:
        archive = subprocess.run(["git", "archive", commit, "crates"], cwd=TOP, stdout=subprocess.PIPE, check=True)
        subprocess.run(["tar", "x", "-C", old], input=archive.stdout, check=True)
        folders = {name: (pathlib.Path(old) / "crates" / name, TOP / "crates" / name) for name in names}
        return [
            name for name, (was, now) in folders.items() if not was.is_dir() or contracts(rt, was) != contracts(rt, now)
        ]


def make_room(room: pathlib.Path, names: List[str], planted: str) -> None:
    """A repository of these crates alone. What an earlier check of the planted one left here spares its first check."""
    rows = {row.partition(":")[0].split()[0]: row for row in (TOP / "crates.txt").read_text().split("\n") if ":" in row.partition("#")[0]}
    room.mkdir()
    (room / "crates.txt").write_text("".join(f"{rows[name]}\n" for name in names))
    shutil.copy(TOP / "HANDLES", room)
    for name in names:
        for part in PARTS:
            if (TOP / "crates" / name / part).is_dir():
                shutil.copytree(TOP / "crates" / name / part, room / "crates" / name / part)
    if (TOP / "crates" / planted / CHECKED).is_dir():
        shutil.copytree(TOP / "crates" / planted / CHECKED, room / "crates" / planted / CHECKED)


def built_by_the_launcher(crate) -> Optional[pathlib.Path]:
    """What the launcher built of a crate in this checkout, if that is of the same text."""
    folder = TOP / "crates" / crate.name / beside.STATEMENTS
    stamp = folder / "stamp"
    return folder if stamp.is_file() and stamp.read_text().split(" ")[0] == crate.stamp() else None


def give_libraries(rt: types.ModuleType, room: pathlib.Path, name: str) -> None:
    """Gives each crate below one the library that the launcher, or else the gate, made of the same text."""
    rt.Crate.allowed = rt.handles_of(str(room))
    rt.rtlib.listed.cache_clear()
    every = rt.crates_of(str(room))
    below = [crate for crate in every if crate.name != name]
    built = [built_by_the_launcher(crate) for crate in below]
    kept = rt.Kept(every)
    for crate, folder in zip(below, built):
        to = pathlib.Path(crate.folder) / "out/rlib"
        # A library fits those that it was built over, so all are of the launcher or none is.
        if folder is not None and None not in built:
            shutil.copytree(folder, to)
        elif kept.give(crate, False, kept.key(crate)):
            kept.is_built(crate)
        else:
            raise NotKept(crate.name)
        (to / "stamp").write_text(crate.stamp())


def plant(room: pathlib.Path, name: str, given: argparse.Namespace, seconds: float) -> Optional[str]:
    """What `rt plant` says of a crate, or None where the time ended before."""
    words = ["rt", "plant", "--max", str(given.max), "--minutes", str(given.crate_minutes), "--jobs", str(given.jobs)]
    with tempfile.TemporaryFile("w+", errors="replace") as said:
        process = subprocess.Popen(
            words, cwd=room / "crates" / name, stdin=subprocess.DEVNULL, stdout=said, stderr=subprocess.STDOUT, start_new_session=True
        )
        try:
            process.wait(timeout=max(seconds, 1))
        except subprocess.TimeoutExpired:
            os.killpg(process.pid, signal.SIGKILL)
            process.wait()
            return None
        said.seek(0)
        return said.read()


def try_crate(rt: types.ModuleType, name: str, uses: Dict[str, List[str]], given: argparse.Namespace, seconds: float) -> str:
    """Prints what a crate lets through, and gives what is to be said of it at the end, if anything is."""
    with tempfile.TemporaryDirectory(prefix="plant-") as above:
        room = pathlib.Path(above) / "room"
        make_room(room, schedule.needed(uses, name), name)
        try:
            give_libraries(rt, room, name)
        except NotKept as crate:
            return f"nothing is kept of {crate}"
        start = time.monotonic()
        said = plant(room, name, given, seconds)
        took = (time.monotonic() - start) / 60
    if said is None:
        return f"not done in {took:.1f} minutes"
    lines = said.split("\n")
    ended = [line for line in lines if line.startswith("plants crate=")]
    if not ended:
        print(f"\n== {name}\n" + "\n".join(lines[-10:]), flush=True)
        return "rt plant failed"
    shown = [line for line in lines if line.split(" ", 1)[0] in LETS_THROUGH or line.startswith("note: some")]
    print("\n".join([f"\n== {name}, {took:.1f} minutes", *shown, *ended]), flush=True)
    return ""


def parse() -> argparse.Namespace:
    words = argparse.ArgumentParser(description=__doc__, formatter_class=argparse.RawDescriptionHelpFormatter)
    words.add_argument("--minutes", type=float, default=60)
    words.add_argument("--crate-minutes", type=int, default=10)
    words.add_argument("--max", type=int, default=400)
    words.add_argument("--jobs", type=int, default=1)
    words.add_argument("--since", metavar="COMMIT")
    words.add_argument("--all", action="store_true")
    words.add_argument("crates", nargs="*", metavar="CRATE")
    given = words.parse_args()
    if bool(given.since) + given.all + bool(given.crates) != 1:
        words.error("either --since COMMIT, or --all, or names of crates")
    return given


def main() -> None:
    given, rt = parse(), load_rt()
    uses = schedule.read_uses((TOP / "crates.txt").read_text())
    unknown = [name for name in given.crates if name not in uses]
    if unknown:
        sys.exit(f"plant: crates.txt has no crate {unknown[0]}")
    names = changed_since(rt, given.since, list(uses)) if given.since else given.crates or list(uses)
    costs = schedule.read_costs(TOP / "launch/minutes.txt")
    costs.update({name: schedule.cost_by_lines(TOP / "crates" / name) for name in names if name not in costs})
    print(f"{len(names)} crates: {' '.join(names)}", flush=True)
    ends, left = time.monotonic() + 60 * given.minutes, {}
    for name in sorted(names, key=lambda name: costs[name].minutes):
        seconds = ends - time.monotonic()
        left[name] = try_crate(rt, name, uses, given, seconds) if seconds > 0 else "no time was left"
    print("\n== not tried" if any(left.values()) else "\nAll were tried.")
    for name, why in left.items():
        if why:
            print(f"{name}: {why}")


if __name__ == "__main__":
    main()
