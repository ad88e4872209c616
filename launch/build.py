#!/usr/bin/env python3
"""Proves a program or an archive and all that it stands on, builds it, and puts it in its place.

    launch/build.py [--rt RT] [--lock DESCRIPTOR] [--cpu PROCESSOR] NAME CRATE
    launch/build.py --prove CRATE [--keep]
    launch/build.py --plan CRATE

The first is what launch.sh calls, who holds the lock that DESCRIPTOR leads to: all that works here keeps it, so that no other call
builds beside what is left of this one. The status is 0 where out/NAME is the program, or the static library, of the sources as they
stood when this began, and 1 where they can't be read, or a crate isn't proved. What all commands said stands in out/NAME.log. With
--cpu a program is built for another processor, by the kit's name for it.

The second proves any crate and all that it stands on in the same way, and puts nothing in a place. The third starts nothing: it
says how long the table of minutes makes a build from nothing, by the number of processors.

A crate is proved as the gate does it, from nothing, and what is built of it serves this alone. With --keep, or where most of the crates
were checked here before, it is proved by `rt lib`, over what earlier checks kept: then `rt check` and other commands of `rt` go on from it.
From nothing that takes longer. Without --lock this waits for the lock itself.
"""

import argparse
import fcntl
import os
import pathlib
import re
import shutil
import signal
import subprocess
import sys
import tempfile
import time
from typing import IO, Dict, List, Optional, Tuple

import schedule

HERE = pathlib.Path(__file__).resolve().parent
TOP = HERE.parent
CRATES = TOP / "crates"
COSTS = HERE / "minutes.txt"

# In a crate's folder: what its checks by `rt` keep for later ones.
KEPT = "out/incremental"

# How often it looks whether a crate has ended, and after how long without a word it says how far it is, in seconds.
LOOKS = 0.1
SAYS = 120

# The memory that each processor is to have, in gigabytes: four took 8.4 at once, and the last crate alone 3.8.
GIGABYTES_A_PROCESSOR = 3

# What a crate that was built before takes of its minutes, at most: it tells nothing of the machine.
AT_ONCE = 0.1

# What is worth showing of what a crate's proof said.
TELLING = re.compile(r"error[\[:]|: not proved$|: no proof\b|: could not tell$|^rt: ")


class Refused(Exception):
    """Why nothing could be built."""


def processors() -> int:
    """The processors that this process may use, by its own limits and those of its control group."""
    found = len(os.sched_getaffinity(0))
    for file in ("/sys/fs/cgroup/cpu.max", "/sys/fs/cgroup/cpu/cpu.cfs_quota_us"):
        quota = re.match(r"(\d+)(?: (\d+))?", read(file))
        if quota is not None:
            period = quota.group(2) or read("/sys/fs/cgroup/cpu/cpu.cfs_period_us") or "100000"
            found = min(found, max(int(quota.group(1)) // int(period), 1))
    return found


def memory() -> float:
    """The gigabytes that are free, also by the limit of the control group, whose cached files can be given back."""
    free = [int(kilobytes) / 1e6 for kilobytes in re.findall(r"MemAvailable: +(\d+)", read("/proc/meminfo"))]
    for folder, limit, held in (("", "memory.max", "anon"), ("memory/", "memory.limit_in_bytes", "total_rss")):
        most = read(f"/sys/fs/cgroup/{folder}{limit}").strip()
        taken = re.search(rf"^{held} (\d+)$", read(f"/sys/fs/cgroup/{folder}memory.stat"), re.M)
        if most.isdigit() and taken is not None:
            free.append((int(most) - int(taken.group(1))) / 1e9)
    return min(free, default=float(GIGABYTES_A_PROCESSOR))


def read(file: str) -> str:
    try:
        return pathlib.Path(file).read_text()
    except OSError:
        return ""


def plan_of(crate: str, at_once: int, most: float) -> schedule.Schedule:
    """What there is to do for a program, with so many processors and gigabytes."""
    try:
        uses = schedule.read_uses((TOP / "crates.txt").read_text())
        costs = schedule.read_costs(COSTS)
        costs.update({name: schedule.cost_by_lines(CRATES / name) for name in uses if name not in costs})
        return schedule.Schedule(uses, crate, costs, at_once, most)
    except (OSError, UnicodeError, ValueError, KeyError) as error:
        raise Refused(f"the sources can't be read: {error!r}") from error


def sum_of(crates: List[str]) -> str:
    script = '. "$1" && shift && sum_of_sources "$@"'
    ran = subprocess.run(
        ["sh", "-c", script, "sh", f"{HERE}/sources.sh", str(TOP), *crates], stdout=subprocess.PIPE, text=True, check=False
    )
    if ran.returncode:
        raise Refused("the sources can't be read")
    return ran.stdout.strip()


def minutes_of(seconds: float) -> str:
    minutes = max(round(seconds / 60), 1)
    return "1 minute" if minutes == 1 else f"{minutes} minutes"


class Work:
    """A command that works for a crate, and what it says."""

    def __init__(self, crate: str, words: List[str], lock: int) -> None:
        self.said: IO[str] = tempfile.TemporaryFile("w+", errors="replace")
        self.start = time.monotonic()
        self.process = subprocess.Popen(
            words, cwd=CRATES / crate, stdin=subprocess.DEVNULL, stdout=self.said, stderr=subprocess.STDOUT, pass_fds=[lock]
        )

    def seconds(self) -> float:
        return time.monotonic() - self.start

    def ended(self) -> Optional[Tuple[int, float]]:
        """The status and the seconds of processors, once it has ended."""
        number, status, used = os.wait4(self.process.pid, os.WNOHANG)
        if not number:
            return None
        self.process.returncode = os.WEXITSTATUS(status) if os.WIFEXITED(status) else -os.WTERMSIG(status)
        return self.process.returncode, used.ru_utime + used.ru_stime

    def text(self) -> str:
        self.said.seek(0)
        text = self.said.read()
        self.said.close()
        return text


class Build:
    """The way of a program or an archive from its sources to out/NAME, or that of a library to its proof."""

    def __init__(self, name: str, crate: str, rt: str, lock: int) -> None:
        self.name, self.crate, self.rt, self.lock = name, crate, rt, lock
        # Whether later checks by `rt` can go on from this one, and the flags of the program alone.
        self.keeps = False
        self.flags: List[str] = []
        self.out = TOP / "out"
        self.out.mkdir(exist_ok=True)
        self.is_program = (CRATES / crate / "src/main.rt").exists()
        # What `rt` makes of the crate, if it is a program or a static library.
        self.made = CRATES / crate / "out" / (crate if self.is_program else f"lib{crate}.a")
        self.log = open(self.out / f"{name}.log", "w")
        self.start = self.last_said = time.monotonic()
        self.works: Dict[str, Work] = {}
        # What crates took, and what they take by the table, in seconds.
        self.taken, self.planned = 60.0, 60.0

    def say(self, text: str) -> None:
        self.last_said = time.monotonic()
        for file in (sys.stderr, self.log):
            print(f"{self.name}: {text}", file=file, flush=True)

    def run(self) -> None:
        """Proves all, and gives what is made its place."""
        self.make_plan()
        crates = self.plan.names
        of_sources = sum_of(crates)
        self.prove()
        if not self.made.is_file():
            raise Refused(f"{self.crate} is neither a program nor a static library")
        self.place(self.made, self.name)
        self.write(f"{self.name}.sum", f"{of_sources}\n{' '.join(crates)}\n")
        self.write("rt", f"{self.rt}\n")

    def make_plan(self) -> None:
        at_once = processors()
        jobs = max(min(at_once, int(memory() / GIGABYTES_A_PROCESSOR)), 1)
        self.plan = plan_of(self.crate, jobs, min(memory(), at_once * GIGABYTES_A_PROCESSOR))
        minutes = {name: self.plan.costs[name].minutes for name in self.plan.names}
        kept = sum(minutes[name] for name in minutes if (CRATES / name / KEPT).is_dir())
        self.keeps = self.keeps or kept > sum(minutes.values()) / 2
        crates = f"{len(self.plan.names)} crate{'s' * (len(self.plan.names) > 1)}"
        at_a_time = f"{jobs} processor{'s' * (jobs > 1)}"
        self.say(f"proving and building: {crates}, from nothing about {minutes_of(60 * self.plan.minutes_left())} on {at_a_time}")

    def place(self, file: pathlib.Path, name: str) -> None:
        """Gives out/ a copy of a file, whole or not at all."""
        shutil.copy(file, self.out / f"{name}.new")
        os.replace(self.out / f"{name}.new", self.out / name)

    def write(self, name: str, text: str) -> None:
        (self.out / f"{name}.new").write_text(text)
        os.replace(self.out / f"{name}.new", self.out / name)

    def prove(self) -> None:
        """Proves each crate when those below it are, and has what is made of the last built."""
        self.made.unlink(missing_ok=True)
        while True:
            self.start_crates()
            if not self.works:
                break
            time.sleep(LOOKS)
            for name, work in list(self.works.items()):
                ended = work.ended()
                if ended is not None:
                    self.take(name, work, *ended)
            if time.monotonic() > self.last_said + SAYS:
                self.tell(f"{', '.join(self.works)} under way")
        if self.plan.failed:
            raise Refused(f"not proved: {', '.join(sorted(self.plan.failed))}")

    def speed(self) -> float:
        """What crates take here for a minute of the table. One that runs for longer than planned counts already."""
        taken, planned = self.taken, self.planned
        for name, work in self.works.items():
            whole = 60 * self.plan.costs[name].clock(self.plan.running[name].jobs)
            if work.seconds() > whole * self.taken / self.planned:
                taken, planned = taken + work.seconds(), planned + whole
        return taken / planned

    def start_crates(self) -> None:
        speed = self.speed()
        for name, work in self.works.items():
            running = self.plan.running[name]
            whole = self.plan.costs[name].clock(running.jobs)
            running.left = max(whole - work.seconds() / 60 / speed, whole / 20)
        while True:
            chosen = self.plan.choose()
            if chosen is None:
                return
            name, jobs = chosen
            self.plan.start(name, jobs)
            self.works[name] = Work(name, self.words(name, jobs), self.lock)

    def words(self, name: str, jobs: int) -> List[str]:
        beside = [sys.executable, "-B", str(HERE / "beside.py"), str(os.getpid()), *["--statements"] * (not self.keeps)]
        if name == self.crate and self.is_program:
            # This proves, builds and starts the program, which has no words and so ends at once, with a status of its own.
            return [*beside, self.rt, "run", "--jobs", str(jobs), *self.flags]
        return [*beside, self.rt, "lib", "--jobs", str(jobs)]

    def take(self, name: str, work: Work, status: int, of_processors: float) -> None:
        """Notes what became of a crate."""
        del self.works[name]
        passed, text, jobs = work.seconds(), work.text(), self.plan.running[name].jobs
        # The status of a program's crate is the program's own.
        is_proved = self.made.is_file() if name == self.crate and self.is_program else status == 0
        self.log.write(f"== {name}: status {status}, jobs {jobs}, seconds {passed:.1f}, of processors {of_processors:.1f}\n{text}")
        self.log.flush()
        if not is_proved:
            self.plan.fail(name)
            shown = [line for line in text.split("\n") if TELLING.search(line)]
            self.say("\n".join([f"crate {name} is not proved", *shown]))
            return
        self.plan.end(name)
        whole = 60 * self.plan.costs[name].clock(jobs)
        if passed > AT_ONCE * whole:
            self.taken, self.planned = self.taken + passed, self.planned + whole
        self.tell(f"crate {len(self.plan.done)} of {len(self.plan.names)} is proved, {name}")

    def tell(self, what: str) -> None:
        left = 60 * self.plan.minutes_left() * self.speed()
        so_far = minutes_of(time.monotonic() - self.start)
        self.say(f"{what}; {so_far} so far, " + (f"about {minutes_of(left)} to go" if left else "nothing to go"))


def locked() -> int:
    """A descriptor that holds the lock of the launchers, once no other has it."""
    (TOP / "out").mkdir(exist_ok=True)
    held = os.open(TOP / "out/lock", os.O_RDWR | os.O_CREAT, 0o666)
    fcntl.flock(held, fcntl.LOCK_EX)
    return held


def print_plans(crate: str) -> None:
    """How long a build from nothing takes by the table."""
    print("processors  minutes  busy  most gigabytes")
    for at_once in (1, 2, 4, 8):
        plan = plan_of(crate, at_once, at_once * GIGABYTES_A_PROCESSOR)
        minutes, of_processors, most = 0.0, 0.0, 0.0
        while True:
            chosen = plan.choose()
            if chosen is not None:
                plan.start(*chosen)
                of_processors += plan.costs[chosen[0]].processor(chosen[1])
                most = max(most, sum(plan.costs[name].memory(it.jobs) for name, it in plan.running.items()))
            elif plan.running:
                minutes += plan.advance()
            else:
                break
        print(f"{at_once:10}  {minutes:7.1f}  {of_processors / minutes:4.1f}  {most:14.1f}   {of_processors:.0f} minutes of a processor")


def main() -> int:
    words = argparse.ArgumentParser(description=__doc__, formatter_class=argparse.RawDescriptionHelpFormatter)
    words.add_argument("--plan", metavar="CRATE")
    words.add_argument("--prove", metavar="CRATE")
    words.add_argument("--keep", action="store_true")
    words.add_argument("--rt", default="rt")
    words.add_argument("--lock", type=int)
    words.add_argument("--cpu", metavar="PROCESSOR")
    words.add_argument("name", nargs="?")
    words.add_argument("crate", nargs="?")
    given = words.parse_args()
    if given.plan:
        print_plans(given.plan)
        return 0
    if not given.prove and not given.crate:
        words.error("a program's name and its crate are wanted")
    # At Ctrl-C it ends at once, as do all that it started.
    if signal.getsignal(signal.SIGINT) is signal.default_int_handler:
        signal.signal(signal.SIGINT, signal.SIG_DFL)
    rt = os.path.abspath(shutil.which(given.rt) or given.rt)
    lock = locked() if given.lock is None else given.lock
    build = Build(given.prove or given.name, given.prove or given.crate, rt, lock)
    build.keeps, build.flags = given.keep, ["--cpu", given.cpu] * bool(given.cpu)
    try:
        if given.prove:
            build.make_plan()
            build.prove()
        else:
            build.run()
    except (Refused, OSError) as why:
        build.say(str(why))
        return 1
    return 0


if __name__ == "__main__":
    sys.exit(main())
