#!/usr/bin/env python3
"""Compares examples/build-tool with make and ninja on one graph of commands, with four at once.

The graph is that of a package's sources, by its own makefile, or of a project of 300 C files that is generated. Each tool builds a copy of its own

* from nothing, and where nothing is to be done: medians of some turns, by the clock;
* so that all outputs are the same, byte for byte.

With build.py, beside: a wrapper counts the compilers at work, never more than leases; a build is killed in the middle, alone or with its commands, and
the next one ends it; one file doesn't compile, with and without --keep-going, and once that is mended the next build ends. Tools that aren't there are
passed over. Not part of the gate.

    bench/build_tool.py [--turns N] [--files N | --make FOLDER WORD..]

WAKHURMI names a folder that c/build.sh has filled; without it one is filled here, which proves crates/wakhurmi_c where that is still to be done. The
sources of a package of some 30 files: `apt-get source --download-only lua5.4`, `tar xf lua5.4_*.orig.tar.gz`, then `--make lua-5.4.4/src linux`.

Measured, 300 files: from nothing make takes 11.3 s, ninja 14.3 and build.py 13.8; nothing to be done 0.013, 0.004 and 0.097 s. At most 4 compilers.

Goals: from nothing at most 1.1 times ninja; nothing to be done in at most 0.3 s.
"""

import argparse
import collections.abc
import hashlib
import json
import os
import pathlib
import shutil
import signal
import statistics
import subprocess
import sys
import tempfile
import time

import measure

EXAMPLE = measure.TOP / "examples/build-tool"
JOBS, FILES = 4, 300
TURNS = 3
MOST_TIMES, MOST_SECONDS = 1.1, 0.3
FILE = "build.json"

Rows = list[dict[str, object]]


def demand(holds: bool, what: str) -> None:
    if not holds:
        sys.exit(f"not so: {what}")


def library_folder(room: pathlib.Path) -> pathlib.Path:
    if os.environ.get("WAKHURMI"):
        return pathlib.Path(os.environ["WAKHURMI"]).resolve()
    measure.skip_without("rt", "cc")
    subprocess.run([measure.TOP / "c/build.sh", room / "library"], check=True)
    return room / "library"


def written_rows(project: pathlib.Path, *words: str) -> Rows:
    """The rows of a file of tasks, which is written to the project's folder."""
    text = subprocess.run([EXAMPLE / "build_file.py", "--json", *words], stdout=subprocess.PIPE, check=True).stdout
    (project / FILE).write_bytes(text)
    return json.loads(text)["task"]


def write_others(project: pathlib.Path, rows: Rows) -> None:
    """The same graph for ninja and for make."""
    ninja, make = ["rule run\n  command = $words\n"], ["all: " + " ".join(row["outputs"][0] for row in rows)]
    for row in rows:
        output, inputs, command = row["outputs"][0], " ".join(row["inputs"]), row["command"].replace("$", "$$")
        ninja.append(f"build {output}: run {inputs}\n  words = {command}\n")
        make.append(f"{output}: {inputs}\n\t{command}")
        (project / output).parent.mkdir(parents=True, exist_ok=True)
    (project / "build.ninja").write_text("\n".join(ninja))
    (project / "graph.mk").write_text("\n".join(make) + "\n")


class Bench:
    def __init__(self, room: pathlib.Path, project: pathlib.Path, rows: Rows, library: pathlib.Path) -> None:
        self.room, self.project, self.rows = room, project, rows
        self.outputs = [output for row in rows for output in row["outputs"]]
        self.env = {**os.environ, "WAKHURMI": str(library), "PYTHONPATH": str(measure.TOP / "python"), "PYTHONDONTWRITEBYTECODE": "1"}
        tools = {"make": ["make", "-s", "-f", "graph.mk"], "ninja": ["ninja", "--quiet"], "build.py": [str(EXAMPLE / "build.py"), FILE]}
        self.tools = {name: [*words, f"-j{JOBS}"] for name, words in tools.items() if name == "build.py" or shutil.which(name)}

    def fresh(self, name: str) -> pathlib.Path:
        """A copy in which nothing is built."""
        copy = self.room / name
        shutil.rmtree(copy, ignore_errors=True)
        shutil.copytree(self.project, copy, symlinks=True)
        return copy

    def clean(self, copy: pathlib.Path) -> None:
        for output in self.outputs:
            (copy / output).unlink(missing_ok=True)

    def run(self, copy: pathlib.Path, *more: str, tool: str = "build.py", **how: object) -> subprocess.CompletedProcess:
        words = {"stdout": subprocess.PIPE, "stderr": subprocess.STDOUT, "text": True, "env": self.env, **how}
        return subprocess.run([*self.tools[tool], *more], cwd=copy, check=False, **words)

    def seconds(self, copy: pathlib.Path, tool: str) -> float:
        begin = time.monotonic()
        ran = self.run(copy, tool=tool)
        demand(ran.returncode == 0, f"{tool} ends well:\n{ran.stdout[-2000:]}")
        return time.monotonic() - begin

    def digests(self, copy: pathlib.Path) -> dict[str, str]:
        """No digest says that there is no such output."""
        files = {output: copy / output for output in self.outputs}
        return {output: hashlib.sha256(file.read_bytes()).hexdigest() if file.exists() else "" for output, file in files.items()}

    def table(self, turns: int) -> dict[str, str]:
        """Prints the times, and answers with the outputs' digests."""
        copies = {tool: self.fresh(tool) for tool in self.tools}
        times: dict[str, list[float]] = {tool: [] for tool in self.tools}
        for _ in range(turns):
            for tool, copy in copies.items():
                self.clean(copy)
                times[tool].append(self.seconds(copy, tool))
        anew = {tool: statistics.median(found) for tool, found in times.items()}
        fresh = {tool: statistics.median(self.seconds(copy, tool) for _ in range(turns + 2)) for tool, copy in copies.items()}
        print(f"{len(self.rows)} commands, {JOBS} at once, on {os.cpu_count()} processors\n\n| | from nothing, s | nothing to be done, s |\n|---|---|---|")
        for tool in self.tools:
            print(f"| {tool} -j{JOBS} | {anew[tool]:.2f} | {fresh[tool]:.3f} |")
        if "ninja" in anew:
            ratio = anew["build.py"] / anew["ninja"]
            print(f"\nfrom nothing {ratio:.2f} times ninja: the goal of {MOST_TIMES} is {'met' if ratio <= MOST_TIMES else 'missed'}")
        print(f"nothing to be done: the goal of {MOST_SECONDS} s is {'met' if fresh['build.py'] <= MOST_SECONDS else 'missed'}")
        found = {tool: self.digests(copy) for tool, copy in copies.items()}
        demand("" not in found["build.py"].values() and all(one == found["build.py"] for one in found.values()), "all tools make the same outputs")
        return found["build.py"]

    def most_compilers(self) -> int:
        """Has wrappers before the compilers, each of which notes that it begins and that it ends."""
        folder, log = self.room / "wrappers", self.room / "compilers"
        folder.mkdir(exist_ok=True)
        for name in {row["command"].split()[0] for row in self.rows}:
            wrapper = folder / name
            wrapper.write_text(f'#!/bin/sh\necho + >>"{log}"\n{shutil.which(name)} "$@"\nstatus=$?\necho - >>"{log}"\nexit $status\n')
            wrapper.chmod(0o755)
        copy = self.fresh("counted")
        ran = self.run(copy, env={**self.env, "PATH": f"{folder}:{os.environ['PATH']}"})
        demand(ran.returncode == 0, f"a build with wrappers:\n{ran.stdout[-2000:]}")
        at_work = most = 0
        for line in log.read_text().split():
            at_work += 1 if line == "+" else -1
            most = max(most, at_work)
        return most

    def killed(self, with_commands: bool, wanted: dict[str, str]) -> int:
        """How many outputs were there as the build was killed, in its middle."""
        copy = self.fresh("killed")
        child = subprocess.Popen([*self.tools["build.py"]], cwd=copy, env=self.env, stdout=subprocess.DEVNULL, start_new_session=True)
        while sum(map(bool, self.digests(copy).values())) < len(self.outputs) // 3:
            time.sleep(0.01)
            demand(child.poll() is None, "the build goes on")
        (os.killpg if with_commands else os.kill)(child.pid, signal.SIGKILL)
        child.wait()
        if not with_commands:
            time.sleep(5)  # Commands that go on alone would write beside those of the next build.
        there = sum(map(bool, self.digests(copy).values()))
        demand(self.run(copy).returncode == 0 and self.digests(copy) == wanted, "a build behind one that was killed ends it")
        return there

    def failing(self, wanted: dict[str, str]) -> None:
        broken = self.rows[len(self.rows) // 2]
        copy = self.fresh("failing")
        source = copy / next(path for path in broken["inputs"] if path.endswith(".c"))
        text = source.read_bytes()
        source.write_bytes(text + b"\n#error as it has to be\n")
        ran = self.run(copy, "--keep-going")
        behind = [line for line in ran.stdout.splitlines() if line.startswith(f"{broken['name']} failed: status 1")]
        demand(ran.returncode == 1 and len(behind) == 1 and "as it has to be" in ran.stdout, f"a failure is told:\n{ran.stdout[-2000:]}")
        made = sum(map(bool, self.digests(copy).values()))
        demand(made >= len([row for row in self.rows if str(row["name"]).endswith(".o")]) - 1, "--keep-going builds all else")
        demand(self.run(copy).returncode == 1, "it fails again")
        source.write_bytes(text)
        demand(self.run(copy).returncode == 0 and self.digests(copy) == wanted, "once it is mended the build ends")


def project_of(asked: argparse.Namespace, room: pathlib.Path) -> tuple[pathlib.Path, Rows]:
    project = room / "project"
    if asked.make:
        shutil.copytree(asked.make[0], project)
        return project, written_rows(project, "make", str(project), *asked.make[1:])
    project.mkdir()
    return project, written_rows(project, "generate", str(project), str(asked.files))


def check(words: collections.abc.Sequence[str]) -> None:
    parser = argparse.ArgumentParser()
    parser.add_argument("--turns", type=int, default=TURNS)
    parser.add_argument("--files", type=int, default=FILES)
    parser.add_argument("--make", nargs="+", metavar="WORD")
    asked = parser.parse_args(words)
    with tempfile.TemporaryDirectory(prefix="build-tool-") as folder:
        room = pathlib.Path(folder)
        project, rows = project_of(asked, room)
        write_others(project, rows)
        bench = Bench(room, project, rows, library_folder(room))
        wanted = bench.table(asked.turns)
        most = bench.most_compilers()
        demand(most <= JOBS, f"{most} compilers at once")
        print(f"at most {most} compilers at once")
        for with_commands in (True, False):
            there = bench.killed(with_commands, wanted)
            print(f"killed {'with its commands' if with_commands else 'alone'} where {there} outputs were there: the next build ended it")
        bench.failing(wanted)
        print("a file that doesn't compile: told, and once mended the next build ended")


if __name__ == "__main__":
    check(sys.argv[1:])
