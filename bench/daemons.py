#!/usr/bin/env python3
"""Runs plans whose items run in child processes: children that behave well and badly, how long an item takes, and whether
any child is left.

Each child has a mark of this bench among its arguments, so that those which are left are found. Every run has a time limit.
Not part of the gate. Works on Linux alone. Without valgrind the instructions aren't counted, and without strace the system
calls of an item and the calls that start a child aren't looked at.

    bench/daemons.py [PROGRAM]

Measured: an item takes 13.6, 14.9 and 23.3 microseconds in three runs (goal 15), 6,237 instructions in the parent (goal 4,000) and 6 system
calls (goal 10). 41 ways of failing are each a fault of their own unit, and leave no child. 200 items with two sets of requirements start 2
daemons, each by one clone3 without a copy of the memory.
"""

import collections
import itertools
import os
import pathlib
import re
import shutil
import signal
import statistics
import subprocess
import sys
import tempfile
import time
from collections.abc import Callable

import measure

LIMIT = 60
MARK = f"mark-of-bench-{os.getpid()}"
STRANGE = measure.PROGRAMS / "strange_worker.py"
REPLY_BYTES = 18
SECONDS_TO_END = 5
FEW, MANY = 100, 1_100
RUNS = 7
MOST_MICROSECONDS = 15
MOST_INSTRUCTIONS = 4_000
MOST_SYSTEM_CALLS = 10
MOST_IDLE = 8


def requirements(name: str, *args: str, executable: str = str(STRANGE), heap: int = 512) -> str:
    words = ", ".join(f'"{word}"' for word in [*args, MARK])
    return f'{{ name = "{name}", executable = "{executable}", heap_mb = {heap}, args = [{words}] }}'


def plan_text(items: list[str], *asked: str) -> str:
    """A plan of one task with items that each name their requirements, 1,024 an action."""
    actions = []
    for start in range(0, len(items), 1024):
        rows = [f'{{ do = "lines", file = "a.txt", isolation = "process", requirements = "{name}" }}' for name in items[start : start + 1024]]
        actions.append(f'{{ wait = "retain", item = [{", ".join(rows)}] }}')
    return (
        'project = [{ name = "app" }]\n'
        f"requirements = [{', '.join(asked)}]\n"
        f'task = [{{ name = "count", project = "app", action = [{", ".join(actions)}] }}]\n'
    )


class Bench:
    def __init__(self, program: str, folder: pathlib.Path) -> None:
        self.program = program
        self.folder = folder
        (folder / "a.txt").write_bytes(b"one\ntwo\nthree\n")

    def words(self, *more: str, threads: int = 1) -> list[str]:
        return [self.program, "run", "plan.toml", "--max-workers", str(threads), *more]

    def run(self, plan: str, threads: int = 1) -> tuple[int, list[str]]:
        """The status of a run and the lines that it printed. No child may be left."""
        (self.folder / "plan.toml").write_text(plan)
        done = subprocess.run(self.words("--daemons", threads=threads), cwd=self.folder, capture_output=True, timeout=LIMIT)
        if left := marked():
            sys.exit(f"after a run there are still {left}:\n{plan}")
        return done.returncode, done.stdout.decode().splitlines()


def marked() -> list[str]:
    """The processes that have the mark, zombies too, which have lost their arguments but not their parent."""
    found = []
    for folder in pathlib.Path("/proc").glob("[0-9]*"):
        try:
            if MARK.encode() in (folder / "cmdline").read_bytes():
                found.append(folder.name)
        except OSError:
            continue
    return found


def zombies_of(parent: int) -> int:
    count = 0
    for folder in pathlib.Path("/proc").glob("[0-9]*"):
        try:
            fields = (folder / "stat").read_text().rpartition(")")[2].split()
        except OSError:
            continue
        count += fields[0] == "Z" and fields[1] == str(parent)
    return count


def expect(what: str, found: object, expected: object) -> None:
    if found != expected:
        sys.exit(f"{what}:\n  {found}\nand not\n  {expected}")


def events_in(lines: list[str]) -> list[str]:
    start = next(place for place, line in enumerate(lines) if line.startswith("daemons "))
    events = lines[start + 1 :]
    expect("the number of events", lines[start], f"daemons {len(events)}")
    return events


def results_in(lines: list[str]) -> list[str]:
    return list(itertools.takewhile(lambda line: not line.startswith("daemons "), lines))


def check_legal(events: list[str]) -> int:
    """Each event may stand where it does, and no daemon is left idle or busy. Gives the number of daemons."""
    state: dict[int, str] = {}
    idle: list[int] = []
    for event in events:
        number, what = int(event.split()[1]), event.split()[2]
        before = state.get(number)
        allowed = {"started": [None], "reserved": ["started", "idle"], "released": ["busy"], "failed": ["busy"], "stopped": ["idle"]}
        if before not in allowed[what] or (what == "started" and number != len(state)):
            sys.exit(f"{event!r} stands behind {before}:\n" + "\n".join(events))
        if what == "stopped" and idle[0] != number:
            sys.exit(f"{event!r}, but {idle[0]} was released first")
        if before == "idle":
            idle.remove(number)
        state[number] = {"started": "started", "reserved": "busy", "released": "idle", "failed": "failed", "stopped": "stopped"}[what]
        if what == "released":
            idle.append(number)
        if len(idle) > MOST_IDLE + 1:
            sys.exit("too many daemons are idle")
    if any(last not in ("failed", "stopped") for last in state.values()):
        sys.exit("a daemon is left: " + "\n".join(events))
    return len(state)


def failing(mode: str, *more: str) -> str:
    return plan_text(["bad", "bad"], requirements("bad", mode, *more))


def two_failed() -> list[str]:
    return [
        f"daemon {number} {what}"
        for number in range(2)
        for what in ("started heap 512", f"reserved {number}", "failed")
    ]


def bad_children(bench: Bench) -> None:
    modes = [("cut", str(count)) for count in range(REPLY_BYTES)] + [("killed", str(count)) for count in range(REPLY_BYTES)]
    modes += [("nonsense",), ("much",), ("other",), ("closes",), ("gone",)]
    for mode in modes:
        status, lines = bench.run(failing(*mode))
        expect(f"the status with {mode}", status, 1)
        expect(f"the values with {mode}", [line for line in lines if line.startswith("  ")], ["  lines a.txt fault"] * 2)
        expect(f"the events with {mode}", events_in(lines), two_failed())
    print(f"{len(modes)} ways of failing: each a fault of its unit, its daemon failed, no child left")


def whole_replies(bench: Bench) -> None:
    """A child that ends behind a whole reply has answered its unit; the next unit finds it dead."""
    status, lines = bench.run(failing("cut", str(REPLY_BYTES)))
    expect("the status of a child that ends behind its reply", status, 1)
    expect("its values", [line for line in lines if line.startswith("  ")], ["  lines a.txt 3", "  lines a.txt fault"])
    for mode in [("slow", "300"), ("deaf",), ("good",)]:
        status, lines = bench.run(failing(*mode))
        expect(f"the status with {mode}", status, 0)
        expect(f"the number of daemons with {mode}", check_legal(events_in(lines)), 1)
    print("children that answer late, or that hear no Stop: served, reused and waited for")


def pipes_not_inherited(bench: Bench) -> None:
    """The first child ends only where its input does. Did a later child hold that pipe open, the run would hang."""
    asked = [requirements("deaf", "deaf", heap=1024), requirements("good", "good")]
    status, lines = bench.run(plan_text(["deaf", "good", "deaf", "good"], *asked))
    expect("the status", status, 0)
    expect("the number of daemons", check_legal(events_in(lines)), 2)
    print("a child's pipe isn't held open by another child")


def adapter(bench: Bench) -> None:
    (bench.folder / "worker").write_text("cat reply\ncat > /dev/null\n")
    (bench.folder / "reply").write_bytes(bytes.fromhex("020000000d00000000010000000000000003"))
    asked = '{ name = "shell", executable = "sh" }'
    status, lines = bench.run(plan_text(["shell"], asked))
    expect("the status of the adapter", status, 0)
    expect("its value", [line for line in lines if line.startswith("  ")], ["  lines a.txt 3"])
    print("a shell as the worker: its reply is taken")


def no_zombies(bench: Bench) -> None:
    """While a run goes on, children that failed have been waited for."""
    (bench.folder / "plan.toml").write_text(plan_text(["bad"] * 100 + ["slow"], requirements("bad", "gone"), requirements("slow", "slow", "1500")))
    child = subprocess.Popen(bench.words("--summary"), cwd=bench.folder, stdout=subprocess.DEVNULL)
    most = 0
    while child.poll() is None:
        most = max(most, zombies_of(child.pid))
        time.sleep(0.002)
    expect("zombies that lasted", most <= 1, True)
    expect("children left", marked(), [])
    print(f"100 children that end at once: at most {most} of them ended and not yet waited for")


def kill_of_the_program(bench: Bench) -> None:
    (bench.folder / "plan.toml").write_text(plan_text(["slow"] * 50, requirements("slow", "slow", "100")))
    child = subprocess.Popen(bench.words("--summary"), cwd=bench.folder, stdout=subprocess.DEVNULL)
    while not marked():
        time.sleep(0.01)
    time.sleep(0.2)
    child.send_signal(signal.SIGKILL)
    child.wait()
    end = time.monotonic() + SECONDS_TO_END
    while marked() and time.monotonic() < end:
        time.sleep(0.05)
    expect("children left behind a killed program", marked(), [])
    print("the program was killed: its children ended by themselves")


def many_threads(bench: Bench) -> None:
    names = ["a", "b", "c"]
    asked = [requirements(name, "good", f"kind-{name}") for name in names]
    items = list(itertools.islice(itertools.cycle(names), 200))
    status, alone = bench.run(plan_text(items, *asked))
    expect("the status on one thread", status, 0)
    for _ in range(20):
        status, lines = bench.run(plan_text(items, *asked), threads=8)
        expect("the status on 8 threads", status, 0)
        expect("the results", results_in(lines), results_in(alone))
        check_legal(events_in(lines))
    print("200 items with 3 sets of requirements on 8 threads, 20 runs: the results of one thread, and legal events")


def own_plan(count: int, sets: int = 1, executable: str = "self") -> str:
    """Items that the program's own worker runs, in turn with requirements of which none covers another."""
    asked = [f'{{ name = "r{number}", encoding = "set-{number}", executable = "{executable}" }}' for number in range(sets)]
    return plan_text([f"r{number % sets}" for number in range(count)], *asked)


def reuse(bench: Bench) -> None:
    status, lines = bench.run(own_plan(200, 2))
    expect("the status", status, 0)
    expect("the daemons of 200 items with two sets of requirements", check_legal(events_in(lines)), 2)
    print("200 items with two sets of requirements on one thread: 2 daemons")


def calls_of_the_program(bench: Bench) -> collections.Counter[str]:
    """The system calls of a run by their names, without those of its children, which call execve first."""
    calls: dict[str, list[str]] = collections.defaultdict(list)
    with tempfile.NamedTemporaryFile("r") as said:
        subprocess.run(["strace", "-f", "-o", said.name, *bench.words("--summary")], cwd=bench.folder, capture_output=True, check=False)
        for row in re.finditer(r"^(\d+) +(\w+)\(", said.read(), re.MULTILINE):
            calls[row.group(1)].append(row.group(2))
    program = next(iter(calls))
    own = (names for process, names in calls.items() if process == program or "execve" not in names)
    return collections.Counter(itertools.chain.from_iterable(own))


def cost(bench: Bench) -> None:
    """What comes with one item more: the run's cost, less that of reading the plan, which a check of nothing reads too."""
    plan = bench.folder / "plan.toml"
    check = [bench.program, "check", "plan.toml"]

    def seconds(words: list[str], count: int) -> float:
        plan.write_text(own_plan(count))
        start = time.perf_counter()
        subprocess.run(words, cwd=bench.folder, stdin=subprocess.DEVNULL, stdout=subprocess.DEVNULL, check=False)
        return time.perf_counter() - start

    def instructions(words: list[str], count: int) -> int:
        # Under valgrind the running program isn't this one, so it has to be named.
        plan.write_text(own_plan(count, executable=bench.program))
        taken, printed = measure.count_instructions(words, folder=bench.folder, settings=measure.STEPWISE)
        if words != check:
            expect("the units", f"units: {count} passed, 0 failed, 0 skipped" in printed.decode().splitlines(), True)
        return taken

    def of_an_item(cost_of: Callable[[list[str], int], float]) -> float:
        run, reading = (cost_of(words, MANY) - cost_of(words, FEW) for words in (bench.words("--summary"), check))
        return (run - reading) / (MANY - FEW)

    times = [of_an_item(seconds) * 1e6 for _ in range(RUNS)]
    print(f"an item in a process: {statistics.median(times):.1f} microseconds, at best {min(times):.1f} (goal {MOST_MICROSECONDS})")
    if shutil.which("valgrind"):
        print(f"an item in a process: {of_an_item(instructions):.0f} instructions in the parent (goal {MOST_INSTRUCTIONS})")
    if shutil.which("strace"):
        plan.write_text(own_plan(MANY))
        many = calls_of_the_program(bench)
        plan.write_text(own_plan(FEW))
        many.subtract(calls_of_the_program(bench))
        found = {name: count / (MANY - FEW) for name, count in many.items() if count > (MANY - FEW) / 2}
        print(f"an item in a process: {sum(found.values()):.1f} system calls in the parent (goal {MOST_SYSTEM_CALLS}): {found}")
        plan.write_text(own_plan(1))
        ran = measure.run_under(["strace", "-f", "-e", "trace=clone,clone3,fork,vfork"], bench.words("--summary"), folder=bench.folder)
        calls = re.findall(r"(?:clone3?|v?fork)\([^,]*", ran.said)
        print("the calls that start a thread or a child:", *calls, sep="\n  ")


def main() -> None:
    program = measure.leases_program()
    with tempfile.TemporaryDirectory() as name:
        bench = Bench(program, pathlib.Path(name))
        for part in (bad_children, whole_replies, pipes_not_inherited, adapter, no_zombies, kill_of_the_program, many_threads, reuse, cost):
            part(bench)


if __name__ == "__main__":
    main()
