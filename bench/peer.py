#!/usr/bin/env python3
"""Sets `leases run` beside a plain Rust program that runs the same plans, with one Mutex and Condvars: bench/programs/plain_peer.

Both have to print the same on random plans and on the plans that are measured, and `check` has to find the peer's histories lawful. Then
each takes its turn on 1, 4, 8 and 32 threads over three plans: a chain of 2,048 tasks, 8,192 tiny items of 2,048 tasks, and 6,144 items of
2,048 tasks that keep the lock of one of two projects.

*Running alone* is all that comes behind the plan's reading. A small library in C is loaded into `leases`, which sets a trap where the call
that reads the plan returns, and takes the times there and at the end (bench/programs/clocked_run). The peer takes them itself. All figures
are medians, but instructions, which don't vary. The goals and whether they are met are printed at the end. Not part of the gate. Skips,
with status 0, where rustc, a C compiler, nm, strace, perf or valgrind is missing.

    bench/peer.py [--ahead] [PROGRAM [TURNS]]

With --ahead the runs that are timed, and those that perf counts, go before all other work of the machine, by a real-time priority. Where
much else runs, the threads of a run hardly ever run at once, and so don't contend. With it they do, as on a quiet machine. It needs the
right to ask for that.

Measured, medians of five, on four processors with no other work: times the peer's processor time, running alone: a chain 1.81 on one thread and 1.6 to
1.7 on 4 to 32, small items 1.55 and 1.3 to 1.5, contended locks 1.61 and 1.2 to 1.4. 4 threads take 1.16, 1.12 and 1.30 times the clock of one.
Instructions an entry 842, 772 and 754, the peer's 258, 297 and 238; a unit running alone 6,968, 2,930 and 3,237. Calls of futex a unit on 8
threads 0.01, 0.28 and 1.4 by strace, 0.01, 0.18 and 0.21 by perf.
"""

import dataclasses
import os
import pathlib
import random
import statistics
import struct
import subprocess
import sys
import tempfile
import time
from collections.abc import Callable

import measure
import runs
import threads

TURNS = 9
THREADS = [1, 4, 8, 32]
RANDOM_PLANS = 60
CLOCKED = measure.PROGRAMS / "clocked_run/clocked_run.c"

# The goals.
MOST_ALONE = 1.4
MOST_MORE_THREADS = 2.0
MOST_BESIDE = 2.0
MOST_FUTEX = {"chain": 0.8, "wide": 0.4}
MOST_AN_ENTRY = 550
MOST_A_UNIT = {"chain": 6_000, "wide": 2_500}
MOST_GROWTH = 2.0
MOST_CLOCK = 1.1

# The peer's functions that are what RUN_OF_THE_WORKERS and READING_OF_FILES are in `leases`.
WORK_OF_THE_PEER = "plain_peer::run::Shared::work"
READING_OF_THE_PEER = "plain_peer::run::value_of"


@dataclasses.dataclass
class Measured:
    """A plan that both programs run."""

    text: str
    units: int


def retaining_plan() -> str:
    """Tasks of two projects in turn, which keep their locks while their items run."""
    action = threads.action_text([threads.item_text("lines", "a.txt")] * 3, "retain")
    return threads.plan_text(2, [threads.task_text(f"t{n}", f"p{n % 2}", [], [action]) for n in range(2048)])


PLANS = {
    "chain": Measured(threads.chain_plan(), 2048),
    "wide": Measured(threads.wide_plan(), 8192),
    "contended": Measured(retaining_plan(), 6144),
}

# Pairs of plans of which the second has 8 times as many of a thing, each with its units.
GROWING = {
    "tasks, 256 to 2,048": [Measured(threads.wide_plan(256, 1), 256), Measured(threads.wide_plan(2048, 1), 2048)],
    "items, 1,024 to 8,192": [Measured(threads.wide_plan(256, 4), 1024), Measured(threads.wide_plan(256, 32), 8192)],
    "names in `after`, 8 to 64": [Measured(runs.plan_text(runs.TASKS, names), runs.TASKS) for names in (8, 64)],
    "locks, 64 to 512": [Measured(threads.wide_plan(2048, 1, projects), 2048) for projects in (64, 512)],
}


@dataclasses.dataclass
class Alone:
    """Seconds of a run alone: of processors and by the clock, of `leases` and of the peer."""

    processor: float
    clock: float
    peer: float
    peer_clock: float


def run_words(number: int) -> list[str]:
    return ["run", "plan.toml", "--threads", str(number), "--max-workers", str(number), "--parallel"]




def build_peer(folder: pathlib.Path, name: str = "plain_peer") -> str:
    """A peer, built for the same processors as the gate builds for."""
    built = folder / name
    words = ["rustc", "-O", "--edition", "2021", "--crate-name", name, "-C", "target-cpu=x86-64-v2"]
    subprocess.run([*words, "-o", str(built), str(measure.PROGRAMS / name / "src/main.rs")], check=True)
    return str(built)


class ClockedRuns:
    """Runs of `leases` whose times are taken from where the plan has been read."""

    def __init__(self, program: str, folder: pathlib.Path, start: Callable[[], None] | None) -> None:
        self.program, self.folder, self.start = program, folder, start
        self.library = folder / "clocked_run.so"
        subprocess.run(["cc", "-O2", "-shared", "-fPIC", "-o", str(self.library), str(CLOCKED)], check=True)
        names = subprocess.run(["nm", program], capture_output=True, text=True, check=True).stdout
        places = [line.split()[0] for line in names.splitlines() if runs.READING_OF_THE_PLAN in line]
        if len(places) != 1:
            sys.exit(f"the program has {len(places)} functions {runs.READING_OF_THE_PLAN}")
        self.place = places[0]

    def seconds(self, words: list[str]) -> tuple[float, float]:
        """Seconds of processors and by the clock from where the plan has been read to the end."""
        counted = self.folder / "clocked"
        settings = {"LD_PRELOAD": str(self.library), "PLACE": self.place, "COUNTED": str(counted)}
        how = {"env": os.environ | settings, "stdout": subprocess.DEVNULL, "preexec_fn": self.start}
        subprocess.run([self.program, *words], cwd=self.folder, check=True, **how)
        processor, clock, last_processor, last_clock = struct.unpack("4Q", counted.read_bytes())
        if not processor:
            sys.exit(f"{words}: the plan wasn't read")
        return (last_processor - processor) / 1e9, (last_clock - clock) / 1e9


class Goals:
    """The goals with what was measured, in the order in which they were judged."""

    def __init__(self) -> None:
        self.rows: list[tuple[str, str, bool]] = []

    def judge(self, goal: str, found: dict[str, float], most: float, form: str = "{:.2f}") -> None:
        """Whether each of the named figures is at most so much."""
        told = ", ".join(f"{name} {form.format(figure)}" for name, figure in found.items())
        self.rows.append((goal, told, all(figure <= most for figure in found.values())))

    def print(self) -> None:
        print("\n| Goal | Measured | Met |\n|---|---|---|")
        for goal, told, met in self.rows:
            print(f"| {goal} | {told} | {'yes' if met else 'no'} |")


class Bench:
    def __init__(self, program: str, folder: pathlib.Path, turns: int, start: Callable[[], None] | None = None) -> None:
        self.program, self.folder, self.turns, self.start = program, folder, turns, start
        self.peer = build_peer(folder)
        self.clocked = ClockedRuns(program, folder, start)
        self.goals = Goals()

    def write(self, plan: str) -> None:
        (self.folder / "plan.toml").write_text(plan)

    def printed(self, program: str, words: list[str]) -> tuple[int, str]:
        run = subprocess.run([program, *words], cwd=self.folder, capture_output=True, text=True, timeout=threads.LIMIT)
        return run.returncode, run.stdout

    def compare(self, plan: str, words: list[str]) -> None:
        """Both print the same, and the peer's history is lawful."""
        self.write(plan)
        expected = self.printed(self.program, words)
        status, printed = self.printed(self.peer, [*words, "--history"])
        results, history = measure.split_history(printed)
        if (status, results) != expected:
            sys.exit(f"the peer didn't print what `leases` prints, with {words}:\n{plan}")
        threads.check_history(self.program, self.folder, history)

    def compare_all(self) -> None:
        seed = random.randrange(2**32)
        draw = random.Random(seed)
        for _ in range(RANDOM_PLANS):
            # The peer has no sha256.
            plan = threads.random_plan(draw).replace("sha256", "bytes")
            for number in (1, 2, 8):
                self.compare(plan, run_words(number)[: 7 - draw.randint(0, 1)])
        for plan in PLANS.values():
            for number in THREADS:
                self.compare(plan.text, run_words(number))
        print(f"both print the same on {RANDOM_PLANS} random plans (seed {seed}) and on those below; the peer's histories are lawful")

    def peer_seconds(self, words: list[str]) -> list[float]:
        """What the peer says that it took behind the plan's reading, of processors and by the clock."""
        how = {"capture_output": True, "text": True, "preexec_fn": self.start}
        run = subprocess.run([self.peer, *words, "--clock"], cwd=self.folder, check=True, **how)
        return [int(word) / 1e9 for word in run.stderr.split()[-2:]]

    def time_plan(self, name: str, plan: Measured) -> dict[int, Alone]:
        """The medians of a plan's turns, by the number of threads."""
        self.write(plan.text)
        turns: dict[int, list[Alone]] = {number: [] for number in THREADS}
        for _ in range(self.turns):
            for number in THREADS:
                words = [*run_words(number), "--summary"]
                turns[number].append(Alone(*self.clocked.seconds(words), *self.peer_seconds(words)))
        found = {number: Alone(*map(statistics.median, zip(*map(dataclasses.astuple, turns[number])))) for number in THREADS}
        for number, took in found.items():
            figures = " | ".join(f"{figure * 1e3:.1f}" for figure in dataclasses.astuple(took))
            print(f"| {name} | {number} | {figures} | {took.processor / took.peer:.2f} |", flush=True)
        return found

    def time_plans(self) -> None:
        print("\n| Plan | Threads | Running alone, ms | By the clock, ms | The peer alone, ms | By the clock, ms | Times the peer's |")
        print("|---|---|---|---|---|---|---|")
        self.judge_times({name: self.time_plan(name, plan) for name, plan in PLANS.items()})

    def judge_times(self, took: dict[str, dict[int, Alone]]) -> None:
        def judge(goal: str, most: float, figure: Callable[[dict[int, Alone]], float]) -> None:
            self.goals.judge(goal, {name: figure(times) for name, times in took.items()}, most)

        judge("one thread: at most 1.4 times the peer's run alone", MOST_ALONE, lambda by: by[1].processor / by[1].peer)
        judge("32 threads: at most 2 times one thread's processor time", MOST_MORE_THREADS, lambda by: by[32].processor / by[1].processor)
        judge("32 threads: at most 2 times the peer's processor time", MOST_BESIDE, lambda by: by[32].processor / by[32].peer)
        judge("4 threads: at most 1.1 times the clock's time of one", MOST_CLOCK, lambda by: by[4].clock / by[1].clock)

    def count_futex_calls(self) -> None:
        words = [*run_words(8), "--summary"]
        print("\n| Plan, 8 threads | Calls of futex a unit, by strace | The peer's | By perf, not held up | The peer's |")
        print("|---|---|---|---|---|")
        found: dict[str, dict[str, float]] = {}
        for name, plan in PLANS.items():
            self.write(plan.text)
            both = [[program, *words] for program in (self.program, self.peer)]
            counts = [self.median_of(count, each) / plan.units for count in (self.futex_by_strace, self.futex_by_perf) for each in both]
            found[name] = {"by strace": counts[0], "by perf": counts[2]}
            print(f"| {name} | {' | '.join(f'{count:.3f}' for count in counts)} |", flush=True)
        for name, most in MOST_FUTEX.items():
            self.goals.judge(f"8 threads: at most {most} calls of futex a unit, {name}", found[name], most, "{:.3f}")

    def median_of(self, count: Callable[[list[str]], int], words: list[str]) -> float:
        return statistics.median(count(words) for _ in range(self.turns))

    def futex_by_strace(self, words: list[str]) -> int:
        return measure.count_system_calls(words, folder=self.folder).get("futex", 0)

    def futex_by_perf(self, words: list[str]) -> int:
        """The calls of a run that goes on as if nobody counted."""
        how = {"capture_output": True, "text": True, "preexec_fn": self.start}
        run = subprocess.run(["perf", "stat", "-x", ",", "-e", "syscalls:sys_enter_futex", *words], cwd=self.folder, check=True, **how)
        return int(run.stderr.splitlines()[-1].split(",")[0])

    def count(self, words: list[str], profile: pathlib.Path) -> int:
        return measure.count_instructions(words, profile=str(profile), folder=self.folder, settings=measure.STEPWISE)[0]

    def alone(self, plan: Measured) -> tuple[float, float]:
        """The instructions of the workers without the files, and those of a unit, running alone without the files."""
        self.write(plan.text)
        profile = self.folder / "callgrind.out"
        whole = self.count([self.program, *run_words(1), "--summary"], profile)
        files, reading = (runs.inclusive(profile, name) for name in (runs.READING_OF_FILES, runs.READING_OF_THE_PLAN))
        return runs.inclusive(profile, runs.RUN_OF_THE_WORKERS) - files, (whole - files - reading) / plan.units

    def entries(self) -> int:
        """How many entries a run of the plan makes."""
        return int(self.printed(self.program, [*run_words(1), "--history"])[1].split()[-1])

    def peers(self) -> int:
        """The instructions of the peer's workers without the files."""
        profile = self.folder / "callgrind.out"
        self.count([self.peer, *run_words(1), "--summary"], profile)
        return runs.inclusive(profile, WORK_OF_THE_PEER) - runs.inclusive(profile, READING_OF_THE_PEER)

    def count_instructions(self) -> None:
        print("\n| Plan, 1 thread, without the files | An entry | The peer's | A unit, running alone | Of these the workers | The peer's |")
        print("|---|---|---|---|---|---|")
        by_entry, by_unit = {}, {}
        for name, plan in PLANS.items():
            workers, by_unit[name] = self.alone(plan)
            entries, peer = self.entries(), self.peers()
            by_entry[name] = workers / entries
            figures = [by_entry[name], peer / entries, by_unit[name], workers / plan.units, peer / plan.units]
            print(f"| {name} | {' | '.join(f'{figure:.0f}' for figure in figures)} |", flush=True)
        self.goals.judge(f"at most {MOST_AN_ENTRY} instructions an entry", by_entry, MOST_AN_ENTRY, "{:.0f}")
        for name, most in MOST_A_UNIT.items():
            self.goals.judge(f"running alone: at most {most:,} instructions a unit without the files", {name: by_unit[name]}, most, "{:.0f}")

    def count_growth(self) -> None:
        print("\n| 8 times as many | A unit, running alone | Growth | The peer's workers | Growth |\n|---|---|---|---|---|")
        found = {}
        for name, pair in GROWING.items():
            few, many = (self.alone(plan)[1] for plan in pair)
            peers = [self.peers_of(plan) for plan in pair]
            found[name] = many / few
            growth = peers[1] / peers[0]
            print(f"| {name} | {few:.0f}, {many:.0f} | {found[name]:.2f} | {peers[0]:.0f}, {peers[1]:.0f} | {growth:.2f} |", flush=True)
        self.goals.judge(f"8 times as many: at most {MOST_GROWTH} times the instructions a unit", found, MOST_GROWTH)

    def peers_of(self, plan: Measured) -> float:
        self.write(plan.text)
        return self.peers() / plan.units


def make_files(folder: pathlib.Path) -> None:
    for number, file in enumerate(threads.FILES[:3]):
        (folder / file).write_bytes(b"a line of words\n" * (number * number * 3 + 1))
    # The files that the plans of bench/runs.py name.
    (folder / "src").mkdir()
    for number in range(16):
        (folder / f"src/file{number}.txt").write_text("a line of text\n" * number)


def go_ahead() -> None:
    """Asks for a real-time priority, behind a pause: the system holds such work back where it takes nearly all the time."""
    time.sleep(0.1)
    os.sched_setscheduler(0, os.SCHED_FIFO, os.sched_param(1))


def main() -> None:
    ahead = "--ahead" in sys.argv
    sys.argv = [word for word in sys.argv if word != "--ahead"]
    measure.skip_without("rustc", "cc", "nm", "strace", "perf", "valgrind")
    program = measure.leases_program()
    turns = int(sys.argv[2]) if len(sys.argv) > 2 else TURNS
    with tempfile.TemporaryDirectory() as name:
        folder = pathlib.Path(name)
        make_files(folder)
        bench = Bench(program, folder, turns, go_ahead if ahead else None)
        bench.compare_all()
        load = f"{os.cpu_count()} processors, which other processes load by {os.getloadavg()[0]:.1f}"
        print(f"{load}{', timed runs ahead of these' * ahead}; medians of {turns}")
        bench.time_plans()
        bench.count_futex_calls()
        bench.count_instructions()
        bench.count_growth()
        bench.goals.print()


if __name__ == "__main__":
    main()
