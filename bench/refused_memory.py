#!/usr/bin/env python3
"""Refuses each allocation of the program in turn, on its main paths, and judges what it answers.

The program is the built one, with files, pipes and worker processes of the system. A small library in C is loaded into it, which counts the
program's own calls of malloc and realloc and gives no memory to one of them: to the first, to the second and so on, as many as the
same words make where nothing is refused. Once more no memory is given to that call and to any behind it. Worker processes aren't
refused any: a worker has a path of its own.

* `run`, on one thread and on four: status 10 with nothing written; or the results of a lawful run, at whose end nobody owns or holds anything,
  where one unit at most had no memory if one call was refused, and all other units have their values. The history is replayed by
  run_model.py and judged by the program's own `check`. No child is left behind.
* `check`, `again` and `make`: status 10 with nothing written, or what they print where nothing is refused.
* `worker`: status 10 behind the beginning of its replies, or all replies, where one at most says that memory was wanting.

Prints how many calls were refused on each path, and how each was answered. Anything else, a signal and a run of more than ten seconds
fail. Not part of the gate. Skips, with status 0, where there is no C compiler.

    bench/refused_memory.py [PROGRAM]

Measured: 8,050 runs, each with one call for memory refused or that and all behind it: status 10 with nothing written, or an end with one
unit without memory, as where each of 940 calls of a run with 32 units was refused: 788 and 152. All ended so.
"""

import collections
import concurrent.futures
import dataclasses
import os
import pathlib
import re
import signal
import subprocess
import sys
import tempfile
import time

import failing_calls
import measure
import run_model
from run_model import Action, Asked, Item, Plan, Task, Wrong, need

MOST_SECONDS = 10
NO_MEMORY = 10
# How a reply says that memory was wanting: behind its kind, its length and its unit.
NO_MEMORY_REPLY = b"\x06"

FIRST = Plan(1, [], [Task(0, (), (Action("retain", None, (Item("lines", "a.txt"),)),))])
PROCESSES = Plan(1, [], [Task(0, (), (Action("release", None, (Item("lines", "a.txt", Asked()), Item("bytes", "a.txt", Asked()))),))])
# Items in threads and in processes of two sets of requirements, fetches, retentions, and a task that fails.
MIXED = failing_calls.random_plan(3)
UNITS = [run_model.Unit(7, 0, 0, Item("lines", "a.txt")), run_model.Unit(8, 0, 0, Item("sha256", "b.txt"))]


@dataclasses.dataclass
class Answer:
    status: int
    printed: bytes
    calls: int = 0


@dataclasses.dataclass
class Path:
    """What the program is asked: its words, its input, and the plan of its run, if it runs one."""

    name: str
    words: list[str]
    given: bytes = b""
    plan: Plan | None = None


class Bench:
    def __init__(self, program: str, folder: pathlib.Path) -> None:
        self.program, self.folder = program, folder
        self.library = folder / "refusing_memory.so"
        source = measure.PROGRAMS / "refusing_memory/refusing_memory.c"
        subprocess.run(["cc", "-O2", "-shared", "-fPIC", "-o", str(self.library), str(source)], check=True)
        for name, content in run_model.FILES.items():
            (folder / name).write_bytes(content)

    def call(self, path: Path, refused: int = 0, ever: bool = False) -> Answer:
        counted = self.folder / f"count-{path.name.replace(' ', '-')}-{refused}-{ever}"
        settings = {"LD_PRELOAD": str(self.library), "REFUSED": str(refused), "COUNTED": str(counted)} | ({"EVER": "yes"} if ever else {})
        how = {"cwd": self.folder, "stdin": subprocess.PIPE, "stdout": subprocess.PIPE, "start_new_session": True}
        with subprocess.Popen([self.program, *path.words], env=os.environ | settings, **how) as run:
            try:
                printed = run.communicate(path.given, timeout=MOST_SECONDS)[0]
            except subprocess.TimeoutExpired:
                os.killpg(run.pid, signal.SIGKILL)
                raise Wrong("it hangs") from None
        self.need_no_child(run.pid)
        need(run.returncode >= 0, f"it ended by signal {-run.returncode}")
        calls = int.from_bytes(counted.read_bytes(), sys.byteorder)
        counted.unlink()
        return Answer(run.returncode, printed, calls)

    def need_no_child(self, session: int) -> None:
        for _ in range(100):
            try:
                os.killpg(session, 0)
            except ProcessLookupError:
                return
            time.sleep(0.01)
        os.killpg(session, signal.SIGKILL)
        raise Wrong("a child is left behind")

    def plain(self, words: list[str], given: bytes) -> tuple[int, bytes]:
        run = subprocess.run([self.program, *words], input=given, stdout=subprocess.PIPE, cwd=self.folder, timeout=MOST_SECONDS)
        return run.returncode, run.stdout

    def judge_run(self, path: Path, answer: Answer, ever: bool) -> str:
        """Judges the results and the book of a run, and says how many units had no memory."""
        result, history, events = failing_calls.parts_of(answer.printed.decode())
        state = run_model.replay(path.plan, history)
        run_model.check_events(state, events)
        need(result == list(run_model.results(state)), f"the results are {result}")
        passed = state.are("task", list(range(len(path.plan.tasks))), "passed")
        need(answer.status == (0 if passed else 1), f"status {answer.status}")
        lawful = f"lawful {len(history) - 3}\n".encode()
        need(self.plain(["check", path.words[1]], answer.printed) == (0, lawful), "the history isn't lawful")
        wanting = [unit for unit, outcome in state.outcomes.items() if outcome == "no-memory"]
        need(ever or len(wanting) <= 1, f"{len(wanting)} units had no memory")
        for unit, outcome in state.outcomes.items():
            need(outcome in ("no-memory", path.plan.units[unit].work.value()), f"unit {unit} ended with {outcome}")
        return "a unit without memory" if wanting else "as if nothing was refused"

    def judge_worker(self, whole: Answer, answer: Answer) -> str:
        """Judges the replies of a worker, each as long as its outcome has it."""
        if answer.status == NO_MEMORY:
            need(whole.printed.startswith(answer.printed), f"replies {answer.printed!r}")
            return "status 10, and the replies up to there"
        need(answer.status == 0, f"status {answer.status}")
        rest, wanting = answer.printed, 0
        for reply in replies_of(whole.printed):
            lacks = b"\x02\x00\x00\x00\x05" + reply[5:9] + NO_MEMORY_REPLY
            need(rest.startswith((reply, lacks)), f"replies {answer.printed!r}")
            wanting += rest.startswith(lacks)
            rest = rest[len(lacks if rest.startswith(lacks) else reply) :]
        need(not rest, f"replies {answer.printed!r}")
        return "a reply without memory" if wanting else "as if nothing was refused"

    def judge(self, path: Path, whole: Answer, answer: Answer, ever: bool) -> str:
        if path.words[0] == "worker":
            return self.judge_worker(whole, answer)
        if answer.status == NO_MEMORY:
            need(not answer.printed, f"status 10, and {answer.printed!r}")
            return "status 10, nothing written"
        if path.plan is not None:
            return self.judge_run(path, answer, ever)
        need((answer.status, answer.printed) == (whole.status, whole.printed), f"status {answer.status}: {answer.printed[:200]!r}")
        return "as if nothing was refused"

    def refuse(self, path: Path, whole: Answer, number: int, ever: bool) -> str:
        try:
            return self.judge(path, whole, self.call(path, number, ever), ever)
        except (Wrong, ValueError, UnicodeDecodeError) as wrong:
            return f"WRONG: {path.name}, call {number}{' and those behind it' * ever}: {wrong}"

    def report(self, path: Path) -> int:
        """Refuses each call of a path, prints how often each answer came, and gives back how many are wrong."""
        whole = self.call(path)
        need(self.judge(path, whole, whole, False) == "as if nothing was refused", f"{path.name}, undisturbed")
        wrong = 0
        for ever in (False, True):
            with concurrent.futures.ThreadPoolExecutor(os.cpu_count()) as pool:
                answers = list(pool.map(lambda number: self.refuse(path, whole, number, ever), range(1, whole.calls + 1)))
            counts = collections.Counter(answers)
            told = "; ".join(f"{counts[answer]} {answer}" for answer in sorted(counts) if not answer.startswith("WRONG"))
            print(f"{path.name}, {whole.calls} calls, each {'and all behind it' if ever else 'alone'}: {told}", flush=True)
            for answer in answers:
                if answer.startswith("WRONG"):
                    print(answer)
                    wrong += 1
        return wrong


def replies_of(printed: bytes) -> list[bytes]:
    found = []
    while printed:
        end = 5 + int.from_bytes(printed[1:5], "big")
        found.append(printed[:end])
        printed = printed[end:]
    return found


def paths(bench: Bench) -> list[Path]:
    for name, plan in {"first.toml": FIRST, "processes.toml": PROCESSES, "mixed.toml": MIXED}.items():
        (bench.folder / name).write_text(plan.text())
    options = ["--threads", "1", "--history", "--daemons"]
    history = bench.plain(["run", "mixed.toml", *options], b"")[1]
    requests = b"".join(failing_calls.request(unit) for unit in UNITS) + b"\x03\0\0\0\0"
    return [
        Path("a first run of one item", ["run", "first.toml", *options], plan=FIRST),
        Path("two items in processes", ["run", "processes.toml", *options], plan=PROCESSES),
        Path(f"a run of {len(MIXED.units)} units of each sort", ["run", "mixed.toml", *options], plan=MIXED),
        Path("the same on four threads", ["run", "mixed.toml", "--threads", "4", "--parallel", *options[2:]], plan=MIXED),
        Path("check", ["check", "mixed.toml"], history),
        Path("again", ["again", "mixed.toml"], history),
        Path("worker", ["worker"], requests),
        Path("make", ["make", "7", "a.txt"]),
    ]


def main() -> None:
    measure.skip_without("cc")
    with tempfile.TemporaryDirectory() as folder:
        bench = Bench(measure.leases_program(), pathlib.Path(folder))
        wrong = sum(bench.report(path) for path in paths(bench))
    sys.exit(1 if wrong else 0)


if __name__ == "__main__":
    main()
