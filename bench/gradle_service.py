#!/usr/bin/env python3
"""Measures a take and a hand-back from C beside the same rounds of Gradle's own service.

Gradle is 4.4.1 as Debian packages it (libgradle-core-java). bench/programs/gradle_service has two programs that do the same: threads take one
project lock and a lease, work, and give both back, again and again. GradleRounds.java does so by `withLocks` of Gradle's DefaultWorkerLeaseService,
service_rounds.c by wakhurmi_take and wakhurmi_hand_back. Threads, leases, locks and work are the same. Each thread has a lock of its own (`own`), or all
share two (`two`), with a lease for each thread; or each has a lock of its own and there are four leases for all (`own, 4 leases`). The work is a loop
of so many nanoseconds by the clock, and a sleep of one millisecond in the last rows. Both are warmed up, and run by turns; each figure is the median.

What the two do differently:
* Gradle keeps no history. Ours keeps each entry: memory that the system has to give is part of its times.
* Gradle's whole state is behind one monitor, under which it tries each lock in turn. Where one can't be had it gives back those that it got in
  this call, and what it gave back it doesn't take again: a change that fails halfway has effects. Ours has none.
* Gradle wakes all that wait, by notifyAll, whatever was given back. Each looks, and all but one or none sleep again. Ours wakes those that wait for one
  of the locks or for a lease.
* Gradle has no order: who looks first gets what is free. Java's monitors let the thread that just gave back in again before one that was woken. So
  few threads are woken, and one may wait for as long as others come. Ours queues a call that was overtaken for a while.
* Of Java all threads of the process are counted, those that compile and clear memory too.

For each row it prints nanoseconds by the clock and of processors that a round takes, work included, and the fewest rounds of a thread by the most. A row
is behind where ours takes more than Gradle's by the clock or of processors, and uneven where the fewest rounds of a thread are less than half the most.

Measured with the proved archive, medians of three runs of 0.8 seconds, on four processors of 2.5 GHz with no other work: ours is ahead in 37 of 48 rows. Ten
rows of 4 to 32 threads and work of 20 microseconds or less take 1.02 to 1.9 times Gradle's time of processors; two of these are behind by the clock too, two locks
with 4 threads and 2 microseconds (4,820 and 3,413 ns) and with 8 and 20 (14,582 and 13,331). One row, 32 threads on two locks without work, is uneven: 0.47. In all
others the fewest rounds of a thread are 0.52 to 1.00 of the most; Gradle's are 0.00 to 1.00, below a half in 14. With locks of their own and no work 1 to 8
threads take 341 to 388 ns by the clock, where Gradle's takes 964 to 1,783.

The archive is that of WAKHURMI, a folder that c/build.sh has filled, or made here, which proves crates/wakhurmi_c where that is still to be done. Not
part of the gate.

    bench/gradle_service.py [SECONDS [TURNS]]

SECONDS are for each run, 1 where it isn't given, and TURNS 3.
"""

import dataclasses
import os
import pathlib
import statistics
import subprocess
import sys
import tempfile

import measure

SOURCES = measure.PROGRAMS / "gradle_service"
SECONDS = sys.argv[1] if len(sys.argv) > 1 else "1"
TURNS = int(sys.argv[2]) if len(sys.argv) > 2 else 3
WARMING = {"Gradle": "1", "ours": "0.2"}
THREADS = (1, 2, 4, 8, 32)
FEW_LEASES = 4
WORK = {"0": 0, "2 us": 2_000, "20 us": 20_000, "1 ms": 1_000_000}

# The packages whose jars the service needs. Of the last all but the interface binds it to a logger.
PACKAGES = ("libgradle-core-java", "libguava-java", "libslf4j-java")
INTERFACE = "slf4j-api"


@dataclasses.dataclass
class Row:
    """What threads want, and for how long."""

    threads: int
    what: str
    work: str

    def words(self) -> list[str]:
        locks = 2 if self.what == "two" else self.threads
        leases = FEW_LEASES if "leases" in self.what else self.threads
        return [str(self.threads), str(leases), str(locks), str(WORK[self.work])]


@dataclasses.dataclass
class Rounds:
    """Nanoseconds that a round takes by the clock and of processors, and the fewest rounds of a thread by the most."""

    clock: float
    processor: float
    evenness: float


def rows() -> list[Row]:
    found = [Row(threads, what, work) for what in ("own", "two") for work in WORK for threads in THREADS]
    return found + [Row(threads, f"own, {FEW_LEASES} leases", work) for work in WORK for threads in THREADS if threads > FEW_LEASES]


def jars_of(package: str) -> list[str]:
    listed = subprocess.run(["dpkg", "-L", package], capture_output=True, text=True)
    if listed.returncode:
        print(f"skipped: there is no package {package} here")
        sys.exit(0)
    return [path for path in listed.stdout.splitlines() if path.startswith("/usr/share/java/") and path.endswith(".jar")]


def class_path() -> str:
    jars = [jar for package in PACKAGES for jar in jars_of(package)]
    # Each has a second name, without the version.
    kept = {str(pathlib.Path(jar).resolve()) for jar in jars if "slf4j" not in pathlib.Path(jar).name or INTERFACE in jar}
    return ":".join(sorted(kept))


def gradle_program(room: pathlib.Path) -> list[str]:
    path = class_path()
    subprocess.run(["javac", "-d", str(room), "-cp", path, str(SOURCES / "GradleRounds.java")], check=True)
    return ["java", "-cp", f"{room}:{path}", "GradleRounds"]


def our_program(room: pathlib.Path) -> list[str]:
    folder = pathlib.Path(os.environ["WAKHURMI"]).resolve() if os.environ.get("WAKHURMI") else room / "library"
    if not os.environ.get("WAKHURMI"):
        measure.skip_without("rt")
        subprocess.run([str(measure.TOP / "c/build.sh"), str(folder)], check=True, stdout=subprocess.DEVNULL)
    program = room / "service_rounds"
    words = ["cc", "-O2", "-Wall", "-Wextra", "-Werror", f"-I{folder}", str(SOURCES / "service_rounds.c"), "-o", str(program)]
    subprocess.run([*words, f"-L{folder}", "-lwakhurmi", "-pthread"], check=True)
    return [str(program)]


def rounds(program: list[str], whose: str, row: Row) -> Rounds:
    said = subprocess.run([*program, *row.words(), WARMING[whose], SECONDS], stdout=subprocess.PIPE, text=True, check=True).stdout
    count, fewest, most, clock, processor = (int(word) for word in said.split())
    return Rounds(clock / max(count, 1), processor / max(count, 1), fewest / max(most, 1))


def median(turns: list[Rounds]) -> Rounds:
    return Rounds(*(statistics.median(getattr(turn, field.name) for turn in turns) for field in dataclasses.fields(Rounds)))


def measured(programs: dict[str, list[str]], row: Row) -> dict[str, Rounds]:
    turns = [{whose: rounds(program, whose, row) for whose, program in programs.items()} for _ in range(TURNS)]
    return {whose: median([turn[whose] for turn in turns]) for whose in programs}


def verdict(ours: Rounds, gradle: Rounds) -> str:
    found = [what for what, is_so in (("clock", ours.clock > gradle.clock), ("processors", ours.processor > gradle.processor)) if is_so]
    return " and ".join([*(f"behind by {what}" for what in found), *(["uneven"] if ours.evenness < 0.5 else [])]) or "ahead"


def main() -> None:
    measure.skip_without("cc", "ar", "dpkg", "java", "javac")
    with tempfile.TemporaryDirectory() as name:
        room = pathlib.Path(name)
        programs = {"Gradle": gradle_program(room), "ours": our_program(room)}
        not_ahead = 0
        print("| Locks | Work | Threads | Clock, Gradle | ours | Processors, Gradle | ours | Fewest by most, Gradle | ours | |")
        print("|---|---|---|---|---|---|---|---|---|---|")
        for row in rows():
            found = measured(programs, row)
            gradle, ours = found["Gradle"], found["ours"]
            said = verdict(ours, gradle)
            not_ahead += said != "ahead"
            figures = [f"{pair.clock:,.0f}" for pair in (gradle, ours)] + [f"{pair.processor:,.0f}" for pair in (gradle, ours)]
            evenness = [f"{pair.evenness:.2f}" for pair in (gradle, ours)]
            print("| " + " | ".join([row.what, row.work, str(row.threads), *figures, *evenness, said]) + " |", flush=True)
    print(f"met: {'yes' if not_ahead == 0 else 'no'}; rows that are behind or uneven: {not_ahead} of {len(rows())}")


if __name__ == "__main__":
    main()
