#!/usr/bin/env python3
"""Runs the commands of a file of tasks, several at once, each only where one of its outputs is missing or older than one of its inputs.

The file is TOML, which Python reads from 3.11 on, or JSON of the same form, from 3.9 on. Commands run, and paths are read, in its folder.

    [[task]]
    name = "parse"                                   # each has its own
    after = ["config.h"]                             # it comes after these tasks, and after those that make its inputs
    command = "cc -O2 -c src/parse.c -o out/parse.o" # for the shell, or a list of words; without one it only stands for those before it
    inputs = ["src/parse.c", "src/parse.h"]
    outputs = ["out/parse.o"]                        # without outputs it runs each time
    serial = "docs"                                  # one at a time with others of that word
    alone = true                                     # while nothing else runs

What may run when the module wakhurmi says: each command has a lease, and at most as many are out as -j says.
"""

from __future__ import annotations

import argparse
import contextlib
import dataclasses
import json
import os
import pathlib
import shutil
import subprocess
import sys
import threading
import urllib.parse
from typing import TYPE_CHECKING, Any, Dict, List, Optional, Sequence, Union

if TYPE_CHECKING:
    import wakhurmi

MOST_LOCKS, MOST_THREADS = 65_535, 256


class BadFile(Exception):
    """The file of tasks can't be read, or isn't one."""


@dataclasses.dataclass(frozen=True)
class Task:
    name: str
    command: Union[str, List[str]] = ""
    after: Sequence[str] = ()
    inputs: Sequence[str] = ()
    outputs: Sequence[str] = ()
    serial: str = ""
    alone: bool = False

    def is_stale(self) -> bool:
        """Whether the command has to run: no output is there, or one is older than an input."""
        if not self.command:
            return False
        times = [time_of(path) for path in self.outputs]
        oldest = min((time or 0 for time in times), default=0)
        return oldest == 0 or any((time_of(path) or oldest + 1) > oldest for path in self.inputs)


def time_of(path: str) -> Optional[int]:
    """When a file was changed, in nanoseconds, or None where there is none."""
    try:
        return os.stat(path).st_mtime_ns
    except OSError:
        return None


def read_tasks(path: pathlib.Path) -> List[Task]:
    try:
        text = path.read_text(encoding="utf-8")
        if path.suffix == ".json":
            found = json.loads(text)
        else:
            import tomllib

            found = tomllib.loads(text)
        tasks = [task_of(row) for row in found["task"]]
    except ImportError:
        raise BadFile(f"{path}: Python reads TOML from 3.11 on. This is {sys.version.split()[0]}, which reads JSON of the same form") from None
    except (OSError, ValueError, KeyError, TypeError) as error:
        raise BadFile(f"{path}: {error!r}") from error
    return tasks


def task_of(row: Dict[str, Any]) -> Task:
    task = Task(**row)
    lists = [task.after, task.inputs, task.outputs, [] if isinstance(task.command, str) else task.command]
    texts = [task.name, task.serial, *(word for words in lists for word in words)]
    are_lists = all(isinstance(words, list) or words == () for words in lists)
    if not are_lists or not all(isinstance(text, str) for text in texts) or not task.name or not isinstance(task.alone, bool):
        raise BadFile(f"a task isn't as it has to be: {row}")
    return task


def numbers_before(tasks: Sequence[Task]) -> List[List[int]]:
    """For each task the numbers of those that it comes after."""
    number_of = {task.name: number for number, task in enumerate(tasks)}
    if len(number_of) < len(tasks):
        raise BadFile("two tasks have one name")
    maker_of: Dict[str, int] = {}
    for number, task in enumerate(tasks):
        for path in task.outputs:
            if maker_of.setdefault(path, number) != number:
                raise BadFile(f"{path} is made by two tasks")
    try:
        named = [[number_of[name] for name in task.after] for task in tasks]
    except KeyError as error:
        raise BadFile(f"there is no task {error}") from None
    return [sorted({*names, *(maker_of[path] for path in task.inputs if path in maker_of)}) for names, task in zip(named, tasks)]


class Build:
    """Tasks, and what became of them. A task has a mark, an empty file, from before its command until it has ended: where the build was killed
    meanwhile, its outputs are no outputs."""

    def __init__(self, tasks: Sequence[Task], marks: pathlib.Path, keeps_going: bool) -> None:
        self.tasks, self.marks, self.keeps_going = tasks, marks, keeps_going
        self.before = numbers_before(tasks)
        self.ended = self.ran = 0
        self.failures: List[str] = []
        self.lock, self.shows = threading.Lock(), sys.stdout.isatty()

    def mark_of(self, task: Task) -> pathlib.Path:
        return self.marks / urllib.parse.quote(task.name, safe="")

    def remove_halves(self) -> None:
        """Removes what commands left of which the build didn't see the end."""
        if self.marks.is_dir():
            for task in self.tasks:
                if self.mark_of(task).exists():
                    self.remove_outputs(task)
                    self.mark_of(task).unlink()

    @staticmethod
    def remove_outputs(task: Task) -> None:
        for path in task.outputs:
            with contextlib.suppress(FileNotFoundError):
                os.unlink(path)

    def plan(self) -> wakhurmi.Plan:
        """A plan with an item for each command. A task keeps its lock while that runs: its group's, or one of its own as far as there are enough."""
        import wakhurmi

        groups = {serial: number for number, serial in enumerate(sorted({task.serial for task in self.tasks if task.serial}))}
        locks = min(len(groups) + len(self.tasks), MOST_LOCKS)
        plan = wakhurmi.Plan(locks)
        for number, task in enumerate(self.tasks):
            own = groups[task.serial] if task.serial else len(groups) + number
            plan.task(wakhurmi.ALL_PROJECTS if task.alone else own % locks)
            if task.command:
                plan.action(number)
        for number, before in enumerate(self.before):
            plan.after(number, *before)
        return plan

    def work(self, service: wakhurmi.PlannedService, job: wakhurmi.Job) -> None:
        """Does what a worker is told to do next."""
        if job.item is None:
            return
        task = self.tasks[job.task]
        failure = self.bring_up_to_date(task)
        with self.lock:
            self.ended += 1
        if failure is None:
            return
        job.fail()
        self.failures.append(f"{task.name} failed: {failure}")
        if not self.keeps_going:
            service.stop()

    def bring_up_to_date(self, task: Task) -> Optional[str]:
        """Runs a task's command if it has to. Answers why that failed."""
        if not task.is_stale():
            return None
        self.show(task)
        mark = self.mark_of(task)
        mark.touch()
        try:
            failure = self.run_command(task)
        except OSError as error:
            failure = str(error)
        if failure is not None:
            self.remove_outputs(task)
        mark.unlink()
        return failure

    def run_command(self, task: Task) -> Optional[str]:
        self.remove_outputs(task)
        for path in task.outputs:
            os.makedirs(os.path.dirname(path) or ".", exist_ok=True)
        streams = {"stdin": subprocess.DEVNULL, "stdout": subprocess.PIPE, "stderr": subprocess.STDOUT}
        ran = subprocess.run(task.command, shell=isinstance(task.command, str), check=False, errors="replace", **streams)  # type: ignore[call-overload]
        with self.lock:
            self.ran += 1
        missing = [path for path in task.outputs if time_of(path) is None]
        if ran.returncode != 0 or missing:
            why = f"status {ran.returncode}" if ran.returncode != 0 else f"it made no {missing[0]}"
            return f"{why}\n$ {task.command}\n{ran.stdout}".rstrip()
        if ran.stdout:
            self.tell(f"{task.name}:\n{ran.stdout}")
        return None

    def show(self, task: Task) -> None:
        """On a terminal, a line of progress."""
        if self.shows:
            with self.lock:
                line = f"[{self.ended}/{len(self.tasks)}] {task.name}"[: shutil.get_terminal_size().columns - 1]
                print("\r\x1b[K", line, sep="", end="", flush=True)

    def tell(self, text: str) -> None:
        with self.lock:
            print("\r\x1b[K" if self.shows else "", text.rstrip("\n"), sep="")

    def run(self, jobs: int, history: Optional[pathlib.Path]) -> int:
        """Answers with the program's status."""
        import wakhurmi

        self.marks.mkdir(exist_ok=True)
        try:
            with self.plan() as plan, plan.run(self.work, min(2 * jobs, MOST_THREADS), jobs) as service:
                if history is not None:
                    history.write_bytes(b"".join(service.history()))
                outcomes = [service.task_outcome(task) for task in range(len(self.tasks))]
        except wakhurmi.Cycle:
            raise BadFile("a task comes after itself, or after one that does") from None
        finally:
            for failure in self.failures:
                self.tell(failure)
            with contextlib.suppress(OSError):
                self.marks.rmdir()
        counts = ", ".join(f"{outcomes.count(outcome)} {outcome.name.lower().replace('_', ' ')}" for outcome in wakhurmi.Outcome if outcome in outcomes)
        self.tell(f"tasks: {counts}; commands run: {self.ran}")
        return 1 if self.failures else 0


def main() -> int:
    words = argparse.ArgumentParser(description=__doc__.partition("\n")[0] if __doc__ else None)
    words.add_argument("file", nargs="?", default="build.toml", type=pathlib.Path, help="the file of tasks: build.toml")
    words.add_argument("-j", dest="jobs", type=int, default=min(os.cpu_count() or 1, MOST_THREADS), help="so many commands at once: the processors")
    words.add_argument("--keep-going", action="store_true", help="go on with what doesn't need what has failed")
    words.add_argument("--history", type=lambda name: pathlib.Path(name).absolute(), help="write the history of the build there")
    asked = words.parse_args()
    if not 1 <= asked.jobs <= MOST_THREADS:
        words.error(f"-j takes 1 to {MOST_THREADS}")
    try:
        tasks = read_tasks(asked.file)
        os.chdir(asked.file.absolute().parent)
        build = Build(tasks, pathlib.Path(f".{asked.file.name}.marks"), asked.keep_going)
        build.remove_halves()
        if asked.history is None and not any(task.is_stale() for task in tasks):
            print("nothing is to be done")
            return 0
        return build.run(asked.jobs, asked.history)
    except BadFile as bad:
        print(bad, file=sys.stderr)
        return 2
    except KeyboardInterrupt:
        print("interrupted", file=sys.stderr)
        return 130


if __name__ == "__main__":
    sys.exit(main())
