#!/usr/bin/env python3
"""Runs plans on several threads: whether they end, whether they print what one thread prints, and how long they take.

Random plans are run with several numbers of threads and leases and compared with one thread, and the program checks each
history that it printed; the seed is printed. Plans that contend for two locks are run many times, each with a time limit.
Then plans of few large files, of many small tasks and of a chain of tasks are timed. Not part of the gate.

    bench/threads.py [PROGRAM [PLANS [RUNS]]]

Measured: 200 random plans printed what one thread prints (seed 1029538069), and 1,000 runs at 32 threads over two locks ended. Running
alone grows 3.98 times from 2,048 to 8,192 items (goal 4.3). A chain at 32 threads takes 1.4 times the processor time of one (goal 3). 32
threads take 3.0 MB more. 64 files of 4 MiB: four threads 2.4 and 2.5 times as fast (goal 2.5).
"""

import os
import pathlib
import random
import subprocess
import sys
import tempfile
import time

import measure

LIMIT = 60
ACTIONS = ["lines", "words", "bytes", "longest", "sha256"]
FILES = ["a.txt", "b.txt", "c.txt", "missing.txt"]
WAITS = ["retain", "release_and_reacquire"]


def item_text(do: str, file: str) -> str:
    return f'{{ do = "{do}", file = "{file}" }}'


def action_text(items: list[str], wait: str, fetch: str | None = None) -> str:
    fetched = "" if fetch is None else f'fetch = "{fetch}", '
    return f'{{ wait = "{wait}", {fetched}item = [{", ".join(items)}] }}'


def task_text(name: str, project: str, after: list[str], actions: list[str]) -> str:
    names = ", ".join(f'"{other}"' for other in after)
    return f'{{ name = "{name}", project = "{project}", after = [{names}], action = [{", ".join(actions)}] }},'


def plan_text(projects: int, tasks: list[str]) -> str:
    names = ", ".join(f'{{ name = "p{number}" }}' for number in range(projects))
    return f"project = [{names}]\ntask = [\n" + "\n".join(tasks) + "\n]\n"


def random_action(draw: random.Random, last: bool) -> str:
    items = [item_text(draw.choice(ACTIONS), draw.choice(FILES[:3] * 5 + FILES)) for _ in range(draw.randint(1, 6))]
    wait = draw.choice(WAITS + ["release"] if last else WAITS)
    return action_text(items, wait, draw.choice([None, None, None, "a.txt", "b.txt", "missing.txt"]))


def random_plan(draw: random.Random) -> str:
    projects = draw.randint(1, 4)
    tasks = []
    for number in range(draw.randint(1, 20)):
        count = draw.randint(0, 3)
        actions = [random_action(draw, place + 1 == count) for place in range(count)]
        after = sorted(draw.sample(range(number), min(number, draw.choice([0, 0, 1, 2]))))
        tasks.append(task_text(f"t{number}", f"p{draw.randrange(projects)}", [f"t{n}" for n in after], actions))
    return plan_text(projects, tasks)


def run(program: str, folder: pathlib.Path, *words: str) -> tuple[int, bytes]:
    """The status of a run and what it printed. A run that doesn't end fails the bench."""
    done = subprocess.run([program, "run", "plan.toml", *words], cwd=folder, capture_output=True, timeout=LIMIT)
    return done.returncode, done.stdout


def compare_random_plans(program: str, folder: pathlib.Path, plans: int) -> None:
    seed = random.randrange(2**32)
    print(f"{plans} random plans, seed {seed}")
    draw = random.Random(seed)
    for number in range(plans):
        (folder / "plan.toml").write_text(random_plan(draw))
        expected = run(program, folder, "--threads", "1")
        for threads in (1, 2, 5, 32):
            words = ["--threads", str(threads), "--max-workers", str(draw.randint(1, threads))]
            words += ["--parallel"] * draw.randint(0, 1)
            status, printed = run(program, folder, "--history", *words)
            results, history = measure.split_history(printed.decode())
            if (status, results.encode()) != expected:
                sys.exit(f"plan {number} with {words} didn't print what one thread prints:\n{(folder / 'plan.toml').read_text()}")
            check_history(program, folder, history)
    print("  each printed what one thread prints, and a lawful history")


def verdict(program: str, folder: pathlib.Path, history: str) -> str:
    """What `check` says of a history."""
    call = [program, "check", "plan.toml"]
    return subprocess.run(call, cwd=folder, input=history, capture_output=True, text=True, timeout=LIMIT).stdout


def check_history(program: str, folder: pathlib.Path, history: str) -> None:
    """The history is found lawful, with as many entries as its last line says."""
    found = verdict(program, folder, history)
    if found != f"lawful {history.splitlines()[-1].removeprefix('end ')}\n":
        sys.exit(f"a history is found {found!r}:\n{(folder / 'plan.toml').read_text()}{history}")


def contended_plan() -> str:
    wait = "release_and_reacquire"
    item = item_text("lines", "a.txt")
    tasks = [task_text(f"t{n}", f"p{n % 2}", [], [action_text([item] * 3, wait), action_text([item], "retain")]) for n in range(40)]
    return plan_text(2, tasks)


def wide_plan(tasks: int = 2048, items: int = 4, projects: int = 64) -> str:
    """So many tasks of projects in turn, each with so many small items."""
    action = action_text([item_text("lines", "a.txt")] * items, "release_and_reacquire")
    return plan_text(projects, [task_text(f"t{n}", f"p{n % projects}", [], [action]) for n in range(tasks)])


def chain_plan(tasks: int = 2048) -> str:
    """So many tasks with a small item each, which come one after another."""
    action = action_text([item_text("lines", "a.txt")], "release_and_reacquire")
    return plan_text(1, [task_text(f"t{n}", "p0", [f"t{n - 1}"] if n else [], [action]) for n in range(tasks)])


def run_contended(program: str, folder: pathlib.Path, runs: int) -> None:
    (folder / "plan.toml").write_text(contended_plan())
    expected = run(program, folder, "--threads", "1", "--summary")
    start = time.monotonic()
    for turn in range(runs):
        words = ["--threads", "32", "--max-workers", str(1 + turn % 32), "--parallel", "--summary"]
        if run(program, folder, *words) != expected:
            sys.exit(f"{words} didn't print what one thread prints")
    print(f"{runs} runs at 32 threads over two locks ended, {(time.monotonic() - start) / runs * 1000:.1f} ms each")


def seconds(program: str, folder: pathlib.Path, *words: str) -> tuple[float, float, int]:
    """The median run of five: seconds by the clock, seconds of processors, and the peak in kilobytes."""
    found = []
    for _ in range(5):
        start = time.monotonic()
        usage = measure.usage_of([program, "run", "plan.toml", "--summary", *words], folder)
        found.append((time.monotonic() - start, usage.seconds, usage.kilobytes))
    return sorted(found)[2]


def report(what: str, one: tuple[float, float, int], more: tuple[float, float, int]) -> None:
    print(
        f"{what}: {one[0]:.3f} s by one thread, {more[0]:.3f} s by several ({one[0] / more[0]:.2f} times as fast); "
        f"{one[1]:.3f} s and {more[1]:.3f} s of processors ({more[1] / max(one[1], 0.001):.2f} times); "
        f"peak {one[2]} and {more[2]} KB"
    )


def time_plans(program: str, folder: pathlib.Path) -> None:
    line = b"some words that stand in a line of a file\n"
    for number in range(64):
        (folder / f"large{number}.txt").write_bytes((line * (4 * 2**20 // len(line) + 1))[: 4 * 2**20])
    large = [action_text([item_text("words", f"large{number}.txt") for number in range(64)], "retain")]
    (folder / "plan.toml").write_text(plan_text(1, [task_text("t", "p0", [], large)]))
    report(
        "64 files of 4 MiB, 4 threads",
        seconds(program, folder, "--threads", "1", "--max-workers", "1"),
        seconds(program, folder, "--threads", "4", "--max-workers", "4"),
    )
    (folder / "plan.toml").write_text(wide_plan())
    report(
        "8,192 small items in 2,048 tasks, 4 threads",
        seconds(program, folder, "--threads", "1", "--max-workers", "1"),
        seconds(program, folder, "--threads", "4", "--max-workers", "4", "--parallel"),
    )
    (folder / "plan.toml").write_text(chain_plan())
    report(
        "a chain of 2,048 tasks, 32 threads",
        seconds(program, folder, "--threads", "1", "--max-workers", "1"),
        seconds(program, folder, "--threads", "32", "--max-workers", "32"),
    )


def main() -> None:
    program = measure.leases_program()
    plans = int(sys.argv[2]) if len(sys.argv) > 2 else 200
    runs = int(sys.argv[3]) if len(sys.argv) > 3 else 1000
    print(f"{os.cpu_count()} processors")
    with tempfile.TemporaryDirectory() as name:
        folder = pathlib.Path(name)
        for number, file in enumerate(FILES[:3]):
            (folder / file).write_bytes(b"a line of words\n" * (number * number * 3 + 1))
        compare_random_plans(program, folder, plans)
        run_contended(program, folder, runs)
        measure.skip_without("time")
        time_plans(program, folder)


if __name__ == "__main__":
    main()
