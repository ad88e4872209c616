"""Which crate is proved when, and with how many jobs: the crates that a program stands on, what each costs, and the choice.

A crate is started when those that it uses are built, the one with the longest chain of crates above it first. One that few
others can run beside gets more jobs: as many as are worth it, by a simulation of all that is left.
"""

import dataclasses
import pathlib
import re
from typing import Dict, List, Optional, Set, Tuple

# What a crate of so many lines costs that isn't in the table.
LINES_A_MINUTE = 600
GIGABYTES = 2.5

# What each job more takes of memory, at most, in gigabytes.
GIGABYTES_A_JOB = 0.8

# How much of a crate's minutes more jobs divide, where the table doesn't say: as measured of large crates that stand on few.
DIVIDED = 0.6

# What each job more takes of a processor beside its part of what is divided, as a share of that.
A_JOB = 0.2

# The choices of jobs. A check with more is hardly faster.
JOBS = (1, 2, 3, 4)

# How much of a processor has to be idle, on the whole, for another crate to be started.
LEAST_SPARE = 0.6

# What a minute of a processor counts beside a minute of the clock. More jobs take more of the processors' time for the same proof.
PRICE = 0.5


@dataclasses.dataclass(frozen=True)
class Cost:
    """What the proof of a crate takes with one job: minutes, and the most memory in gigabytes. And how much more jobs divide."""

    minutes: float
    gigabytes: float
    divided: float = DIVIDED

    @staticmethod
    def measured(jobs: int, clock: float, processor: float, memory: float, known: float = DIVIDED) -> "Cost":
        """The cost of a crate that took so much with so many jobs. Of one job nothing is seen of what more divide: that is as known before."""
        busy, behind = processor / clock, 1 - 1 / jobs
        divided = (busy - 1) / (A_JOB * (jobs - 1) + busy * behind) if jobs > 1 else known
        divided = min(max(divided, 0.0), 1.0)
        return Cost(clock / (1 - divided * behind), max(memory - GIGABYTES_A_JOB * (jobs - 1), 1.0), divided)

    def clock(self, jobs: int) -> float:
        """The minutes that pass with so many jobs."""
        return self.minutes * (1 - self.divided + self.divided / jobs)

    def processor(self, jobs: int) -> float:
        """The minutes of a processor with so many jobs."""
        return self.minutes * (1 + A_JOB * self.divided * (jobs - 1))

    def busy(self, jobs: int) -> float:
        """How many processors so many jobs keep busy, on the whole."""
        return self.processor(jobs) / self.clock(jobs)

    def memory(self, jobs: int) -> float:
        return self.gigabytes + GIGABYTES_A_JOB * (jobs - 1)


def read_uses(text: str) -> Dict[str, List[str]]:
    """By crate, the crates of a crates.txt that it uses."""
    rows = [row.partition("#")[0].partition(":") for row in text.split("\n")]
    uses = {names.split()[0]: used.split() for names, colon, used in rows if colon and names.split()}
    return {name: [other for other in used if other in uses] for name, used in uses.items()}


def needed(uses: Dict[str, List[str]], target: str) -> List[str]:
    """The crates that one stands on, each behind those that it uses, and itself at the end."""
    found: List[str] = []

    def take(name: str, above: Tuple[str, ...]) -> None:
        if name in above:
            raise ValueError(f"{name} uses itself")
        for other in uses[name]:
            if other not in found:
                take(other, (*above, name))
        if name not in found:
            found.append(name)

    take(target, ())
    return found


def read_costs(file: pathlib.Path) -> Dict[str, Cost]:
    """The table: on each line a crate, its minutes, its gigabytes and, where it was measured, how much of the minutes more jobs divide."""
    rows = re.findall(r"^(\w+) ([0-9.]+) ([0-9.]+)(?: ([0-9.]+))?$", file.read_text() if file.exists() else "", re.M)
    return {name: Cost(float(minutes), float(gigabytes), float(divided or DIVIDED)) for name, minutes, gigabytes, divided in rows}


def cost_by_lines(folder: pathlib.Path) -> Cost:
    """What a crate is likely to cost that no table has."""
    files = [file for part in ("src", "specs", "proofs") for file in (folder / part).rglob("*") if file.is_file()]
    lines = sum(file.read_bytes().count(b"\n") for file in files)
    return Cost(max(lines / LINES_A_MINUTE, 0.1), GIGABYTES)


@dataclasses.dataclass
class Running:
    """A crate that is being proved, and the minutes that are left of it as if nothing ran beside it."""

    jobs: int
    left: float


class Schedule:
    """The crates that a program stands on, and how far each is."""

    def __init__(self, uses: Dict[str, List[str]], target: str, costs: Dict[str, Cost], processors: int, memory: float) -> None:
        self.names = needed(uses, target)
        self.uses = {name: uses[name] for name in self.names}
        self.costs, self.processors, self.memory = costs, processors, memory
        self.done: Set[str] = set()
        self.failed: Set[str] = set()
        self.running: Dict[str, Running] = {}
        # The minutes from the start of a crate to the end of all, with one job each and nothing to wait for.
        self.chain: Dict[str, float] = {}
        for name in reversed(self.names):
            above = [self.chain[other] for other in self.names if other in self.chain and name in self.uses[other]]
            self.chain[name] = costs[name].minutes + max(above, default=0)

    def copy(self) -> "Schedule":
        made = object.__new__(Schedule)
        made.__dict__.update(self.__dict__)
        made.done, made.failed = set(self.done), set(self.failed)
        made.running = {name: Running(it.jobs, it.left) for name, it in self.running.items()}
        return made

    def ready(self) -> List[str]:
        """The crates that can be started, the longest chain first."""
        begun = {*self.done, *self.failed, *self.running}
        found = [name for name in self.names if name not in begun and self.done.issuperset(self.uses[name])]
        return sorted(found, key=lambda name: -self.chain[name])

    def start(self, name: str, jobs: int) -> None:
        self.running[name] = Running(jobs, self.costs[name].clock(jobs))

    def end(self, name: str) -> None:
        del self.running[name]
        self.done.add(name)

    def fail(self, name: str) -> None:
        """Notes that a crate isn't proved. Those above it are never ready."""
        del self.running[name]
        self.failed.add(name)

    def busy(self) -> float:
        """How many processors the running crates keep busy."""
        return sum(self.costs[name].busy(it.jobs) for name, it in self.running.items())

    def has_spare(self) -> bool:
        """Whether there is a processor for another crate."""
        return self.processors - self.busy() >= LEAST_SPARE

    def has_memory(self, name: str, jobs: int) -> bool:
        """Whether a crate fits beside those that run. With nothing beside it a crate with one job is always tried."""
        taken = sum(self.costs[other].memory(it.jobs) for other, it in self.running.items())
        return taken + self.costs[name].memory(jobs) <= self.memory or (jobs == 1 and not self.running)

    def share(self, name: str, others: int) -> int:
        """The jobs of a crate where so many can be started: its share of the processors that are idle."""
        most = max(min(int(self.processors - self.busy()) // others, max(JOBS)), 1)
        return next((jobs for jobs in range(most, 0, -1) if self.has_memory(name, jobs)), 0)

    def advance(self) -> float:
        """Ends the running crate that is done first, and gives the minutes until then. Jobs beyond the processors make all slower."""
        slower = max(self.busy() / self.processors, 1)
        name = min(self.running, key=lambda other: self.running[other].left)
        passed = self.running[name].left
        self.end(name)
        for it in self.running.values():
            it.left -= passed
        return passed * slower

    def minutes_left(self) -> float:
        """How long all that is left takes, where each crate gets its share."""
        here, passed = self.copy(), 0.0
        while True:
            ready = here.ready()
            for at, name in enumerate(ready):
                jobs = here.share(name, len(ready) - at) if here.has_spare() else 0
                if jobs:
                    here.start(name, jobs)
            if not here.running:
                return passed
            passed += here.advance()

    def with_start(self, name: str, jobs: int) -> float:
        here = self.copy()
        here.start(name, jobs)
        return here.minutes_left()

    def choose(self) -> Optional[Tuple[str, int]]:
        """The crate to start now, and its jobs, or None where none is to be started before another ends."""
        if not self.has_spare():
            return None
        for name in self.ready():
            choices = [jobs for jobs in JOBS if jobs <= self.processors and self.has_memory(name, jobs)]
            if not choices:
                continue
            best = min(choices, key=lambda jobs: self.with_start(name, jobs) + PRICE * self.costs[name].processor(jobs))
            return name, best
        return None
