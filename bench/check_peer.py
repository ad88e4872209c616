#!/usr/bin/env python3
"""Sets `leases check` beside a plain Rust program that checks the same histories: bench/programs/plain_check.

First both judge histories of random plans, some of whose tasks ask for all projects, and of a worker that takes, blocks and hands back. Then
texts of these in which one byte is another, and such as have other entries: left out, moved, doubled or changed. And each history is
judged by its plan with one name more in `after`, and locks that workers take at random are judged. They have to print the same, with the same
status: also at which entry a history isn't lawful. The seed is printed.

Then each has its turn on the history of 9,600 entries of bench/commands.py, and on its lawful histories of 32 and 64 MiB, by a file and by a
pipe from `cat`. Printed are the processor time of the program itself, the medians of the turns, the instructions of an entry, and the peak
memory. What the same program takes with an empty input, the reading of the plan, is left out of times and instructions. The 64 MiB aren't run
under callgrind. The goals and whether they are met are printed at the end. Not part of the gate. Skips, with status 0, where rustc, valgrind or
GNU time is missing.

    bench/check_peer.py [PROGRAM [TURNS [TEXTS [SEED]]]]

Where much else runs, `nice -n -10 bench/check_peer.py` keeps the turns from being held up.

Measured, on four processors with no other work: times the peer's processor time by a file 1.28, 1.19 and 1.18 at 9,600, 598,495 and 1,191,612 entries, by
a pipe 4.26, 4.00 and 3.68 (goal 3). Instructions an entry by a file 1,815 and 1,790, by a pipe 2,732 and 2,344; the peer's 1,457 and 1,579. Peak 2.0 MB
at 64 MiB, as the peer's. 1,600 judged texts had the same answers (seed 2059805964). By pipes 480 had those of the program before, and behind each lawful
one all that followed stayed (seed 7).

By a pipe `check` takes no byte behind the text, so it asks for no more than the text surely still has: 5.6 and 3.5 reads an entry, 7.5 and 5.8
before it counted on the shortest line of an entry. Side by side in an unproved build, while other work ran: processor time 874 ms before, 635
since, at 598,495 entries, where a file takes 200 and the peer 138. Of the 635 ms
435 are reads: 205 ns each, 135 of them the system's. Of 230 instructions a read 62 add the bytes to the line, 53 look for its end, 48 are
the source's, and 45 the loop's, which says how many to ask for.

Tried: to ask by the change that a line breaks off in, which needs the last bar or comma. That makes 3.9 and 3.3 reads, but the search takes as
long as those that it spares. By all of the grammar, so that each read asks for as much as any text still has, 3.0 reads an entry are
left in both histories (2.9 in the first without the bound of 32 bytes a read): with these the goal isn't reached either. The number of entries
stands at the end of a text alone, and the kit reaches no call that shows what a pipe has and leaves it there.
"""

import collections
import contextlib
import dataclasses
import os
import pathlib
import random
import re
import statistics
import subprocess
import sys
import tempfile
from collections.abc import Iterator

import all_projects
import commands
import measure
import peer
import run_model

TURNS = 9
TEXTS = 300
# So many texts with other entries are made of each history.
ENTRIES_CHANGED = 4
PEER = "plain_check"
THREADS = [1, 2, 5, 8]
CHECK = ["check", "plan.toml"]

# The goals: processor time as a multiple of the peer's.
MOST_BY_FILE = 2.0
MOST_BY_PIPE = 3.0


@dataclasses.dataclass
class Recorded:
    """A plan, and the lines of a lawful history of it."""

    plan: str
    lines: list[str]


@dataclasses.dataclass
class Given:
    """What is measured: a plan, a history of so many entries, and whether callgrind counts its instructions."""

    name: str
    plan: bytes
    history: bytes
    counted: bool

    def entries(self) -> int:
        return self.history.count(b"\n") - 3


@dataclasses.dataclass
class Figures:
    """Seconds of a processor, instructions of an entry where they were counted, and peak memory in kilobytes."""

    seconds: float
    instructions: float | None
    kilobytes: int


def renumbered(lines: list[str]) -> list[str]:
    """The entries of these lines numbered anew, and the end line for them."""
    bodies = [line.split(" ", 1)[1] for line in lines[2:-1]]
    return [*lines[:2], *(f"{number} {body}" for number, body in enumerate(bodies, 1)), f"end {len(bodies)}"]


def with_another_byte(draw: random.Random, lines: list[str]) -> bytes:
    """One byte of the text is another: any, or one that the text has elsewhere."""
    text = bytearray("".join(f"{line}\n" for line in lines).encode())
    place = draw.randrange(len(text))
    text[place] = draw.choice([draw.choice(text), draw.randrange(256)])
    return bytes(text)


def with_another_number(draw: random.Random, line: str) -> str:
    """One of the numbers behind the entry's own is another small one."""
    found = draw.choice(list(re.finditer(r"\d+", line))[1:])
    return f"{line[: found.start()]}{draw.randrange(6)}{line[found.end() :]}"


def with_other_changes(draw: random.Random, line: str) -> str:
    """A change is lacking, or stands elsewhere, or stands twice, or none was made."""
    head, _, effect = line.partition(" | ")
    changes = effect.split(", ")
    change = changes.pop(draw.randrange(len(changes)))
    for _ in range(draw.randrange(3)):
        changes.insert(draw.randint(0, len(changes)), change)
    return f"{head} | {draw.choice([', '.join(changes) or 'nothing'] * 4 + ['nothing', 'failed'])}"


def without_a_unit(draw: random.Random, lines: list[str]) -> list[str]:
    """All entries of a unit or an action that one entry is of are left out."""
    found = re.search(r" (claim|close|block|unblock|submit|park|resume) (\d+)\b", draw.choice(lines[2:-1]))
    if found is None:
        return lines
    sort = "claim|close|block|unblock" if found[1] in ("claim", "close", "block", "unblock") else "submit|park|resume"
    return [line for line in lines if not re.match(rf"\d+ w\d+ ({sort}) {found[2]}\b", line)]


def moved(draw: random.Random, lines: list[str]) -> list[str]:
    """An entry stands some places before or behind its own."""
    lines = list(lines)
    place = draw.randrange(2, len(lines) - 1)
    line = lines.pop(place)
    lines.insert(min(max(2, place + draw.randint(-8, 8)), len(lines) - 1), line)
    return lines


def with_another_line(draw: random.Random, lines: list[str]) -> list[str]:
    """An entry is swapped with another, doubled, left out, or has another worker, number or changes."""
    lines = list(lines)
    place, other = draw.randrange(2, len(lines) - 1), draw.randrange(2, len(lines) - 1)
    match draw.randrange(6):
        case 0:
            lines[place], lines[other] = lines[other], lines[place]
        case 1:
            lines.insert(other, lines[place])
        case 2:
            del lines[place]
        case 3:
            lines[place] = re.sub(r" w\d+", f" w{draw.randrange(9)}", lines[place], count=1)
        case 4:
            lines[place] = with_another_number(draw, lines[place])
        case _:
            lines[place] = with_other_changes(draw, lines[place])
    return lines


def with_other_settings(draw: random.Random, lines: list[str]) -> list[str]:
    """The second line says another number of workers, leases or locks."""
    word = draw.choice(["workers", "max", "max", "locks"])
    return [lines[0], re.sub(rf"{word} \d+", f"{word} {draw.randint(1, 8)}", lines[1]), *lines[2:]]


def with_other_entries(draw: random.Random, lines: list[str]) -> bytes:
    """A text of a history whose entries or settings are others. All entries are numbered anew."""
    change = draw.choice([without_a_unit, moved, moved, moved, with_another_line, with_another_line, with_other_settings])
    return "".join(f"{line}\n" for line in renumbered(change(draw, lines))).encode()


def with_another_order(draw: random.Random, plan: str) -> str:
    """One of the plan's tasks comes after an earlier one more."""
    tasks = list(re.finditer(r"after = \[", plan))
    if len(tasks) < 2:
        return plan
    task = draw.randrange(1, len(tasks))
    place = tasks[task].end()
    return f'{plan[:place]}"t{draw.randrange(task)}", {plan[place:]}'


def random_locks(draw: random.Random) -> bytes:
    """Three workers take and give back locks, the all-projects lock among them, without a look at who has what."""
    owned: dict[int, list[int]] = {}
    lines = ["history 2", "workers 3 max 3 parallel yes locks 3"]
    for _ in range(draw.randint(2, 6)):
        worker = draw.randrange(3)
        if worker in owned:
            body = f"handback | {', '.join([f'unlock {lock}' for lock in owned.pop(worker)] + ['give'])}"
        else:
            owned[worker] = sorted(draw.sample(range(3), draw.randint(1, 2)))
            body = f"acquire | {', '.join([f'lock {lock}' for lock in owned[worker]] + ['take'])}"
        lines.append(f"{len(lines) - 1} w{worker} {body}")
    return "".join(f"{line}\n" for line in [*lines, f"end {len(lines) - 2}"]).encode()


class Bench:
    def __init__(self, program: str, folder: pathlib.Path, turns: int) -> None:
        self.program, self.folder, self.turns = program, folder, turns
        self.programs = [program, peer.build_peer(folder, PEER)]
        self.goals = peer.Goals()
        for name, content in run_model.FILES.items():
            (folder / name).write_bytes(content)

    # Whether both judge texts alike.

    def recorded(self, draw: random.Random) -> Recorded:
        """A random plan with the history of a run of it, or one worker's history of locks alone."""
        if draw.randrange(6) == 0:
            return Recorded(commands.PLAN_OF_TWO_LOCKS, commands.repeated_history(800)[1].decode().splitlines())
        plan = all_projects.random_plan(draw).text()
        (self.folder / "plan.toml").write_text(plan)
        number = draw.choice(THREADS)
        words = ["--threads", str(number), "--max-workers", str(draw.randint(1, number)), *["--parallel"] * draw.randint(0, 1)]
        run = subprocess.run([self.program, "run", "plan.toml", "--history", *words], cwd=self.folder, capture_output=True, text=True)
        return Recorded(plan, measure.split_history(run.stdout)[1].splitlines())

    def compare(self, plan: str, text: bytes) -> str:
        """What both print of a text."""
        (self.folder / "plan.toml").write_text(plan)
        (self.folder / "text").write_bytes(text)
        answers = []
        for program in self.programs:
            with (self.folder / "text").open("rb") as given:
                run = subprocess.run([program, *CHECK], cwd=self.folder, stdin=given, capture_output=True)
            answers.append((run.returncode, run.stdout))
        if answers[0] != answers[1]:
            sys.exit(f"they differ, {answers}:\n{plan}\n{text!r}")
        return answers[0][1].decode().strip()

    def compare_all(self, texts: int, seed: int) -> None:
        draw = random.Random(seed)
        counts: dict[str, collections.Counter[str]] = collections.defaultdict(collections.Counter)
        for _ in range(texts):
            found = self.recorded(draw)
            whole = "".join(f"{line}\n" for line in found.lines).encode()
            if self.compare(found.plan, whole) != f"lawful {len(found.lines) - 3}":
                sys.exit(f"a history isn't lawful:\n{found.plan}\n{whole.decode()}")
            for name, change in [("a byte", with_another_byte)] + [("entries", with_other_entries)] * ENTRIES_CHANGED:
                damaged = whole
                while damaged == whole:
                    damaged = change(draw, found.lines)
                counts[name][self.kind_of_answer(found.plan, damaged)] += 1
            counts["all, by locks taken at random"][self.kind_of_answer(commands.PLAN_OF_TWO_LOCKS, random_locks(draw))] += 1
            counts["the plan"][self.kind_of_answer(with_another_order(draw, found.plan), whole)] += 1
        print(f"both print the same of {texts} lawful histories (seed {seed}), and where of these is changed")
        for name, count in counts.items():
            print(f"  {name}: {', '.join(f'{number} {answer}' for answer, number in count.items())}")

    def kind_of_answer(self, plan: str, text: bytes) -> str:
        return self.compare(plan, text).rstrip("0123456789 ").removesuffix(" at")

    # What they take.

    @contextlib.contextmanager
    def given(self, by_file: bool) -> Iterator[object]:
        """The text as a standard input."""
        if by_file:
            with (self.folder / "text").open("rb") as given:
                yield given
            return
        with subprocess.Popen(["cat", "text"], cwd=self.folder, stdout=subprocess.PIPE) as cat:
            yield cat.stdout

    def seconds(self, program: str, by_file: bool, expected: str) -> float:
        """The processor time of one check, without that of `cat`."""
        with self.given(by_file) as given:
            run = subprocess.Popen([program, *CHECK], cwd=self.folder, stdin=given, stdout=subprocess.PIPE)
            printed = run.stdout.read().decode()
            _, status, used = os.wait4(run.pid, 0)
            run.returncode = os.waitstatus_to_exitcode(status)
            run.stdout.close()
        if printed != expected:
            sys.exit(f"{program} printed {printed!r}, not {expected!r}")
        return used.ru_utime + used.ru_stime

    def kilobytes(self, program: str, by_file: bool) -> int:
        with self.given(by_file) as given, tempfile.NamedTemporaryFile("r") as said:
            call = ["time", "-q", "-f", "%M", "-o", said.name, program, *CHECK]
            subprocess.run(call, cwd=self.folder, stdin=given, stdout=subprocess.DEVNULL, check=True)
            return int(said.read())

    def instructions(self, program: str, by_file: bool, given: Given) -> float | None:
        if not given.counted:
            return None
        how = {"folder": self.folder, "by_file": by_file}
        reading, _ = measure.count_instructions([program, *CHECK], **how)
        whole, _ = measure.count_instructions([program, *CHECK], given=given.history, **how)
        return (whole - reading) / given.entries()

    def medians(self, by_file: bool, text: bytes, expected: str) -> list[float]:
        """Of each program the median of its turns."""
        (self.folder / "text").write_bytes(text)
        turns = [[self.seconds(program, by_file, expected) for program in self.programs] for _ in range(self.turns)]
        return [statistics.median(times) for times in zip(*turns)]

    def measure(self, given: Given, by_file: bool) -> list[Figures]:
        """Both programs' figures."""
        (self.folder / "plan.toml").write_bytes(given.plan)
        reading = self.medians(by_file, b"", "not lawful at 0\n")
        whole = self.medians(by_file, given.history, f"lawful {given.entries()}\n")
        found = []
        for program, before, after in zip(self.programs, reading, whole):
            figures = Figures(after - before, self.instructions(program, by_file, given), self.kilobytes(program, by_file))
            found.append(figures)
        return found

    def measure_all(self, all_given: list[Given]) -> None:
        print("\n| History | By | `check`, ms | The peer, ms | Times the peer's | Instructions an entry | The peer's | Peak, KB | The peer's |")
        print("|---|---|---|---|---|---|---|---|---|")
        times: dict[bool, dict[str, float]] = {True: {}, False: {}}
        entries: dict[str, float] = {}
        memory: dict[str, float] = {}
        for given in all_given:
            for by_file, by in ((True, "a file"), (False, "a pipe")):
                own, other = self.measure(given, by_file)
                times[by_file][given.name] = own.seconds / other.seconds
                memory[f"{given.name} by {by}"] = own.kilobytes
                if own.instructions is not None:
                    entries[f"{given.name} by {by}"] = own.instructions
                counts = " | ".join("" if each.instructions is None else f"{each.instructions:.0f}" for each in (own, other))
                print(
                    f"| {given.name} | {by} | {own.seconds * 1e3:.1f} | {other.seconds * 1e3:.1f} | {own.seconds / other.seconds:.2f} |"
                    f" {counts} | {own.kilobytes} | {other.kilobytes} |",
                    flush=True,
                )
        self.goals.judge("by a file: at most 2 times the peer's processor time", times[True], MOST_BY_FILE)
        self.goals.judge("by a pipe: at most 3 times the peer's processor time", times[False], MOST_BY_PIPE)
        self.goals.judge("at most 1,500 instructions an entry", entries, commands.MOST_AN_ENTRY, "{:.0f}")
        self.goals.judge("peak memory at most 10 MB, in KB", memory, commands.MOST_KILOBYTES, "{:.0f}")


def all_given(program: str, folder: pathlib.Path) -> list[Given]:
    """The histories of bench/commands.py."""
    made = commands.made_run(program, folder)
    found = [Given("9,600 entries", (folder / "plan.toml").read_bytes(), made, True)]
    for size in (32, 64):
        _, text = commands.repeated_history(size * commands.MIB)
        found.append(Given(f"{size} MiB", commands.PLAN_OF_TWO_LOCKS.encode(), text, size == 32))
    return found


def main() -> None:
    measure.skip_without("rustc", "valgrind", "time")
    program = measure.leases_program()
    turns, texts, seed = [*map(int, sys.argv[2:]), *[TURNS, TEXTS, random.randrange(2**32)][len(sys.argv[2:]) :]]
    with tempfile.TemporaryDirectory() as name:
        bench = Bench(program, pathlib.Path(name), turns)
        bench.compare_all(texts, seed)
        bench.measure_all(all_given(program, bench.folder))
        bench.goals.print()


if __name__ == "__main__":
    main()
