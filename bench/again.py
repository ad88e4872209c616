#!/usr/bin/env python3
"""Drives recorded runs of random plans again, and compares what `leases again` says with a reckoning of its own.

Each random plan is run on several threads. With the same files its history gives `same N`. Then one byte of one file is
changed, added or taken away, or the file is removed, and `again` has to name the first closing entry whose unit gives something
else. That entry is found here from the printed history and the plan, with values that are worked out here. The seed is printed.
Then the instructions of `again` are compared with those of `check` and of the run. Not part of the gate.

    bench/again.py [PROGRAM [PLANS]]

Measured: 40, 20 and 100 random plans (seeds 1427806794, 1547200386, 2870191852): with the same files each gave the same; with another file
35, 19 and 81 differed, where they had to. 2,048 items: 126.3 million instructions, where `check` takes 115.4 and the run 104.4.
"""

import hashlib
import pathlib
import random
import re
import shutil
import subprocess
import sys
import tempfile
import tomllib

import measure
import runs
import threads

CLOSING = re.compile(r"(\d+) w\d+ (?:close|unblock) (\d+) ([^|]+) \|")
MOST_OF_BOTH = 1.1


def value(action: str, text: bytes) -> str:
    """What an action gives on a file's bytes, as a history says it."""
    if action == "sha256":
        return "digest " + hashlib.sha256(text).hexdigest()
    counts = {
        "lines": text.count(b"\n"),
        "words": len(re.split(rb"[ \t-\r]+", text.strip(b" \t\n\v\f\r"))) if text.strip(b" \t\n\v\f\r") else 0,
        "bytes": len(text),
        "longest": max(len(line) for line in text.split(b"\n")),
    }
    return f"number {counts[action]}"


def units_of(plan: str) -> list[tuple[str, str]]:
    """The units of a plan, in order: an action and a file. A fetch gives the number of bytes."""
    units = []
    for task in tomllib.loads(plan).get("task", []):
        for action in task.get("action", []):
            if "fetch" in action:
                units.append(("bytes", action["fetch"]))
            units += [(item["do"], item["file"]) for item in action["item"]]
    return units


def expected(folder: pathlib.Path, plan: str, history: list[str]) -> str:
    """What `again` has to print of a history without faults."""
    units = units_of(plan)
    for line in history:
        found = CLOSING.match(line)
        if found is None or line.endswith("| failed"):
            continue
        action, name = units[int(found[2])]
        file = folder / name
        today = value(action, file.read_bytes()) if file.exists() else "missing"
        if found[3] != today:
            return f"differs at {found[1]}\n"
    return f"same {history[-1].removeprefix('end ')}\n"


def again(program: str, folder: pathlib.Path, history: bytes) -> str:
    done = subprocess.run([program, "again", "plan.toml"], cwd=folder, input=history, capture_output=True, timeout=60)
    return done.stdout.decode()


def change(draw: random.Random, file: pathlib.Path) -> None:
    """Changes one byte of a file, adds one, takes one away, or removes the file."""
    text = file.read_bytes()
    place = draw.randrange(len(text))
    byte = bytes([draw.choice([10, 32, 97, text[place] ^ 1])])
    way = draw.choice(["change", "change", "add", "take", "remove"])
    if way == "remove":
        file.unlink()
    else:
        behind = text[place:] if way == "add" else text[place + 1 :]
        file.write_bytes(text[:place] + (b"" if way == "take" else byte) + behind)


def drive_random_plans(program: str, folder: pathlib.Path, plans: int) -> None:
    seed = random.randrange(2**32)
    print(f"{plans} random plans, seed {seed}")
    draw = random.Random(seed)
    differ = 0
    for number in range(plans):
        plan = threads.random_plan(draw)
        (folder / "plan.toml").write_text(plan)
        words = ["--threads", str(draw.choice([1, 2, 8])), "--max-workers", str(draw.randint(1, 4))]
        words += ["--parallel"] * draw.randint(0, 1)
        _, printed = threads.run(program, folder, "--history", *words)
        history = printed.decode().splitlines()
        same = f"same {history[-1].removeprefix('end ')}\n"
        if again(program, folder, printed) != same or expected(folder, plan, history) != same:
            sys.exit(f"plan {number} doesn't give the same:\n{plan}{printed.decode()}")
        name = draw.choice(threads.FILES[:3])
        shutil.copy(folder / name, folder / "kept")
        change(draw, folder / name)
        wanted, found = expected(folder, plan, history), again(program, folder, printed)
        if wanted != found:
            sys.exit(f"plan {number} with another {name} gives {found!r} and not {wanted!r}:\n{plan}{printed.decode()}")
        differ += wanted != same
        (folder / "kept").rename(folder / name)
    print(f"  each gave the same, and {differ} of them another entry with another file")


PROJECTS = {"core": [], "util": ["core"], "api": ["util"], "web": ["api"], "cli": ["api"], "docs": []}


def task(name: str, project: str, after: list[str], items: list[str]) -> str:
    """A task of one action, with items after their keys."""
    head = f'[[task]]\nname = "{name}"\nproject = "{project}"\nafter = {after}\n\n[[task.action]]\n'
    return head.replace("'", '"') + "".join(f"\n[[task.action.item]]\n{item}" for item in items) + "\n"


def six_projects(folder: pathlib.Path) -> str:
    """A plan of 14 tasks and 60 units, 10 of them in processes, and its files."""
    process = 'isolation = "process"\n'
    compiles, tests = "", ""
    for project, needs in PROJECTS.items():
        (folder / "src" / project).mkdir(parents=True)
        for k in range(6):
            (folder / "src" / project / f"{k}.txt").write_text("alpha beta\n" * (k + 1))
        lines = [f'do = "lines"\nfile = "src/{project}/{k}.txt"\n' for k in range(6)]
        words = [f'do = "words"\nfile = "src/{project}/{k}.txt"\n' + process * (k == 0) for k in range(3)]
        compiles += task(f"{project}:compile", project, [f"{need}:compile" for need in needs], lines)
        tests += task(f"{project}:test", project, [f"{project}:compile"], words)
    sizes = [f'do = "bytes"\nfile = "src/core/{k}.txt"\n' + process for k in range(4)]
    counts = [f'do = "count"\nneedle = "alpha"\nfile = "src/core/{k}.txt"\n' for k in (4, 5)]
    last = task("dist", "core", [f"{project}:test" for project in PROJECTS], sizes) + task("report", "docs", ["dist"], counts)
    return "".join(f'[[project]]\nname = "{project}"\n\n' for project in PROJECTS) + compiles + tests + last


def drive_six_projects(program: str, folder: pathlib.Path) -> None:
    """Runs the plan on eight threads, and drives the run again."""
    (folder / "plan.toml").write_text(six_projects(folder))
    _, printed = threads.run(program, folder, "--history", "--threads", "8", "--max-workers", "4", "--parallel")
    entries = printed.decode().splitlines()[-1].removeprefix("end ")
    if again(program, folder, printed) != f"same {entries}\n" or b"total: 319\n" not in printed:
        sys.exit(f"the plan of six projects doesn't give the same:\n{printed.decode()}")
    print(f"six projects: the same {entries} entries")


def measure_cost(program: str, folder: pathlib.Path) -> None:
    """The instructions of `again` beside those of `check` and of the run, on a plan of 2,048 items."""
    runs.make_folder(folder, 2048)
    run, history = measure.count_instructions([program, *runs.RUN], folder=folder)
    check, _ = measure.count_instructions([program, "check", "plan.toml"], folder=folder, given=history)
    driven, _ = measure.count_instructions([program, "again", "plan.toml"], folder=folder, given=history)
    times = driven / (check + run)
    print(f"2,048 items: {driven} instructions; {check} to check, {run} to run: {times:.2f} of both (goal {MOST_OF_BOTH})")
    if times > MOST_OF_BOTH:
        sys.exit("again costs more than a check and a run")


def main() -> None:
    program = measure.leases_program()
    plans = int(sys.argv[2]) if len(sys.argv) > 2 else 200
    with tempfile.TemporaryDirectory() as name:
        folder = pathlib.Path(name)
        for number, file in enumerate(threads.FILES[:3]):
            (folder / file).write_bytes(b"a line of words\n" * (number * number * 3 + 1))
        drive_random_plans(program, folder, plans)
        drive_six_projects(program, folder)
        measure.skip_without("valgrind")
    with tempfile.TemporaryDirectory() as name:
        measure_cost(program, pathlib.Path(name))


if __name__ == "__main__":
    main()
