#!/usr/bin/env python3
"""Measures the first command of README: the build of a program in a fresh clone, with nothing kept on the machine.

It clones the repository as it is committed into a temporary folder, puts an empty folder in place of what the kit keeps beside
itself, for the build alone (by `unshare`, which needs root or user namespaces), and calls `./leases` with no words, which
proves and builds the program, and ends with status 2. Then it prints the clock's minutes, those of processors, how many
processors were busy, the most memory that all processes had at once, what each crate took, and how well the lines on the
way told what was to go.

    bench/first_command.py [--crate CRATE] [--processors N] [--old] [--write]

--crate proves one crate and all below it in place of the program, --processors N keeps all to so many processors, and --old
proves by `rt all check --jobs N` in the crate's folder, as launchers did once. --write puts what the crates took into
launch/minutes.txt, by which the launcher chooses. Takes up to an hour, and wants a machine that does nothing else. Not part of
the gate.
"""

import argparse
import atexit
import collections
import os
import pathlib
import re
import resource
import shutil
import signal
import subprocess
import sys
import tempfile
import threading
import time
from typing import Dict, List, Tuple

TOP = pathlib.Path(__file__).resolve().parent.parent
sys.dont_write_bytecode = True
sys.path.insert(0, str(TOP / "launch"))
import schedule  # noqa: E402

INTERVAL = 10.0
COSTS = TOP / "launch/minutes.txt"
DONE = re.compile(r"^== (\w+): status \d+, jobs (\d+), seconds ([\d.]+), of processors ([\d.]+)$", re.M)
TO_GO = re.compile(r"about (\d+) minutes? to go")

HEAD = """\
# What the proof of each crate takes with one job: minutes, and the most memory in gigabytes. And how much of the minutes more jobs
# divide. bench/first_command.py --write wrote this on a machine of {processors} processors. A crate that isn't here is estimated by its lines.
"""


class Memory(threading.Thread):
    """Looks at how much memory all processes below one have, every ten seconds: at most at once, and by the crate that they work for."""

    def __init__(self, top: int) -> None:
        super().__init__(daemon=True)
        self.top, self.most = top, 0.0
        self.of_crates: Dict[str, float] = {}

    def run(self) -> None:
        while True:
            by_crate = self.look()
            self.most = max(self.most, sum(by_crate.values()))
            for crate, gigabytes in by_crate.items():
                self.of_crates[crate] = max(self.of_crates.get(crate, 0), gigabytes)
            time.sleep(INTERVAL)

    def look(self) -> Dict[str, float]:
        below: Dict[int, List[int]] = collections.defaultdict(list)
        for folder in pathlib.Path("/proc").glob("[0-9]*"):
            try:
                text = (folder / "stat").read_text()
                below[int(text[text.rindex(")") + 2 :].split()[1])].append(int(folder.name))
            except (OSError, ValueError):
                pass
        found: Dict[str, float] = collections.defaultdict(float)
        waiting = [(self.top, "")]
        while waiting:
            number, crate = waiting.pop()
            crate = crate or crate_of(number)
            found[crate] += gigabytes_of(number)
            waiting += [(child, crate) for child in below[number]]
        return found


def crate_of(number: int) -> str:
    try:
        words = pathlib.Path(f"/proc/{number}/cmdline").read_bytes().decode(errors="replace").split("\0")
        return words[words.index("--crate-name") + 1]
    except (OSError, ValueError):
        return ""


def gigabytes_of(number: int) -> float:
    """What a process has of the memory, where what several share is counted by shares."""
    try:
        found = re.search(r"^Pss: +(\d+)", pathlib.Path(f"/proc/{number}/smaps_rollup").read_text(), re.M)
        return int(found.group(1)) / 1e6 if found else 0.0
    except OSError:
        return 0.0


def clone(to: pathlib.Path) -> None:
    subprocess.run(["git", "clone", "--quiet", "--no-hardlinks", str(TOP), str(to)], check=True)


def with_nothing_kept(words: List[str], empty: pathlib.Path) -> List[str]:
    """The words that run a command where an empty folder stands in place of what the kit keeps."""
    rt = shutil.which("rt")
    if rt is None:
        sys.exit("first_command: there is no command rt on the path")
    kept = pathlib.Path(os.path.realpath(rt)).parent.parent.parent / "rattle-kept"
    if not kept.is_dir():
        return words
    user = [] if os.geteuid() == 0 else ["--map-root-user"]
    return ["unshare", *user, "--mount", "sh", "-c", 'mount --bind "$1" "$2" && shift 2 && exec "$@"', "sh", str(empty), str(kept), *words]


def command(given: argparse.Namespace, top: pathlib.Path) -> Tuple[List[str], pathlib.Path]:
    """What is measured, and the folder that it is called in."""
    crate = given.crate or "leases"
    if given.old:
        finish = "" if given.crate else " && { rt run </dev/null; [ -x out/leases ]; }"
        return ["sh", "-c", f"rt all check --jobs {processors(given)}{finish}"], top / "crates" / crate
    if given.crate:
        return [sys.executable, "-B", str(top / "launch/build.py"), "--prove", crate], top
    return [str(top / "leases")], top


def processors(given: argparse.Namespace) -> int:
    return given.processors or len(os.sched_getaffinity(0))


def print_crates(log: str, memory: Memory) -> Dict[str, schedule.Cost]:
    """What each crate took, and what it would with one job."""
    costs: Dict[str, schedule.Cost] = {}
    known = schedule.read_costs(COSTS)
    print("\n| Crate | Jobs | Minutes | Of processors | Gigabytes |\n|---|---|---|---|---|")
    for name, jobs, seconds, of_processors in DONE.findall(log):
        gigabytes = memory.of_crates.get(name, 0.0)
        print(f"| {name} | {jobs} | {float(seconds) / 60:.1f} | {float(of_processors) / 60:.1f} | {gigabytes:.1f} |")
        divided = known[name].divided if name in known else schedule.DIVIDED
        costs[name] = schedule.Cost.measured(int(jobs), float(seconds) / 60, float(of_processors) / 60, gigabytes, divided)
    return costs


def print_told(said: List[Tuple[float, str]], whole: float) -> None:
    """How far the lines on the way were from what was to go, from the fifth minute on."""
    worst = (1.0, "")
    for at, line in said:
        found = TO_GO.search(line)
        left = (whole - at) / 60
        if found and at >= 300 and left >= 1:
            told = int(found.group(1))
            worst = max(worst, (max(told / left, left / told), f"at {at / 60:.1f} minutes it told {told}, and {left:.1f} were to go"))
    print(f"Worst line from the fifth minute on, by a factor of {worst[0]:.2f}: {worst[1] or 'none'}.")


def write_costs(costs: Dict[str, schedule.Cost], at_once: int) -> None:
    whole = {**schedule.read_costs(COSTS), **costs}
    rows = [f"{name} {cost.minutes:.2f} {cost.gigabytes:.1f} {cost.divided:.2f}\n" for name, cost in sorted(whole.items())]
    COSTS.write_text(HEAD.format(processors=at_once) + "".join(rows))


def end(process: subprocess.Popen) -> None:
    """Ends what is measured, where it hasn't ended."""
    if process.poll() is None:
        os.killpg(process.pid, signal.SIGKILL)


def measure(given: argparse.Namespace, above: pathlib.Path) -> int:
    top, empty = above / "clone", above / "empty"
    empty.mkdir()
    clone(top)
    words, folder = command(given, top)
    words = with_nothing_kept(words, empty)
    if given.processors:
        words = ["taskset", "-c", ",".join(map(str, sorted(os.sched_getaffinity(0))[: given.processors])), *words]
    start = time.monotonic()
    streams = {"stdin": subprocess.DEVNULL, "stdout": subprocess.PIPE, "stderr": subprocess.STDOUT}
    process = subprocess.Popen(words, cwd=folder, text=True, start_new_session=True, **streams)
    atexit.register(end, process)
    memory = Memory(process.pid)
    memory.start()
    said: List[Tuple[float, str]] = []
    assert process.stdout is not None
    for line in process.stdout:
        said.append((time.monotonic() - start, line))
        print(f"{said[-1][0] / 60:5.1f}  {line}", end="", flush=True)
    status = process.wait()
    whole = time.monotonic() - start
    used = resource.getrusage(resource.RUSAGE_CHILDREN)
    of_processors = used.ru_utime + used.ru_stime
    log = top / "out" / f"{given.crate or 'leases'}.log"
    if log.exists():
        costs = print_crates(log.read_text(), memory)
        if given.write:
            write_costs(costs, processors(given))
    print(
        f"\nStatus {status}. {whole / 60:.1f} minutes by the clock, {of_processors / 60:.1f} of processors, {of_processors / whole:.1f} busy,"
        f" at most {memory.most:.1f} GB at once."
    )
    print_told(said, whole)
    return 0 if given.old or given.crate else int(status != 2)


def main() -> None:
    words = argparse.ArgumentParser(description=__doc__, formatter_class=argparse.RawDescriptionHelpFormatter)
    words.add_argument("--crate")
    words.add_argument("--processors", type=int)
    words.add_argument("--old", action="store_true")
    words.add_argument("--write", action="store_true")
    given = words.parse_args()
    signal.signal(signal.SIGTERM, lambda *_: sys.exit(1))
    above = pathlib.Path(tempfile.mkdtemp(prefix="first-command-"))
    try:
        sys.exit(measure(given, above))
    finally:
        shutil.rmtree(above, ignore_errors=True)


if __name__ == "__main__":
    main()
