#!/usr/bin/env python3
"""Lets each call of a desk, of an input and of an output fail in turn, in runs of ten plans, and judges each run.

The program is that of the gate's cases (`crates/gate_cases`): this script writes case files into a temporary folder and runs it
there. What each run printed is judged by a reckoning of its own (`run_model.py`): the history is replayed, the events and the
results are worked out, and on one thread it is known which unit the failing call meets. The plans are made from numbers, so they
are the same each time. Not part of the gate.

    bench/failing_calls.py [PROGRAM [PLANS [PART OF A SORT'S NAME [STEP]]]]

PROGRAM is `crates/gate_cases/out/gate_cases` if it isn't given, which `rt run` makes in that crate's folder. With a STEP only
every so many cases are run.

Measured: all 81,855 runs of ten plans with 209 units ended as they should: 2,205 with calls of one desk or answers that are no reply, 1,605
with calls of four desks, 60,403 with outputs of each length, 6,558 of `check` and `again`, 11,084 of workers.
"""

import collections
import dataclasses
import hashlib
import math
import os
import pathlib
import random
import re
import subprocess
import sys
import tempfile
from collections.abc import Callable, Iterator

import measure
import run_model
from run_model import Action, Asked, Item, OneDesk, Plan, Task, Wrong, need

THREADS = 4
PIECE = 16
MORE_CALLS = 8
PAIRS = 60
SETS = [Asked(1024), Asked(512, ("-v",))]
# What a daemon may not answer: nothing, a Stop, a request, a reply for a unit that no plan here has.
LIES = ["", "0300000000", "010000000c0000000001000561" + "2e747874", "020000000d00ffffff010000000000000003"]
HEAD = re.compile(
    r"status (\d+)(?: at (\d+))?(?:, (\d+) entries)?(?:, (lawful|not found lawful))?(?:, (\d+) faults)?, (\d+) bytes(?:, digest (\w+))?"
)


@dataclasses.dataclass
class Answer:
    """How a call of the program ended, and what it wrote, or the digest of that."""

    status: int
    place: int | None
    finished: int | None
    lawful: str | None
    faults: int
    length: int
    digest: str | None
    text: str


@dataclasses.dataclass
class Case:
    """A call of the program: the sections that differ from those of the plan's other cases, and what judges its answer."""

    sort: str
    sections: list[str]
    judge: Callable[[Answer], None]
    shows_digits: bool = False


def random_item(draw: random.Random) -> Item:
    asked = draw.choice([None, None, None, Asked(), *SETS])
    do = draw.choice(["lines", "words", "bytes", "longest", "sha256"])
    return Item(do, draw.choice(["a.txt", "a.txt", "b.txt", "empty.txt"]), asked)


def random_action(draw: random.Random, is_last: bool) -> Action:
    wait = draw.choice(["retain", "release_and_reacquire"] + ["release"] * is_last)
    fetch = draw.choice([None, None, "b.txt"])
    return Action(wait, fetch, tuple(random_item(draw) for _ in range(draw.randint(1, 3))))


def random_plan(number: int) -> Plan:
    """A plan with items in threads and in processes, fetches and retentions. In every second one a file is missing."""
    draw = random.Random(number)
    tasks = []
    for task in range(draw.randint(4, 6)):
        count = draw.randint(1, 3)
        actions = [random_action(draw, place == count - 1) for place in range(count)]
        after = tuple(sorted(draw.sample(range(task), draw.randint(0, min(task, 2)))))
        tasks.append(Task(draw.randrange(3), after, tuple(actions)))
    if number % 2:
        lost = tasks[1].actions[0]
        missing = dataclasses.replace(lost, items=(*lost.items, Item("lines", "missing.txt", draw.choice([None, Asked()]))))
        tasks[1] = dataclasses.replace(tasks[1], actions=(missing, *tasks[1].actions[1:]))
    return Plan(3, SETS, tasks)


def words(number: int, threads: int) -> str:
    parallel = " --parallel" if number % 3 else ""
    return f"run plan.toml --threads {threads} --max-workers {1 + number % 4}{parallel}"


def parts_of(text: str) -> tuple[list[str], list[str], list[str]]:
    """The lines of the results, of the history and of the events."""
    lines = text.splitlines()
    begin = next(place for place, line in enumerate(lines) if measure.HISTORY.fullmatch(line))
    events = next(place for place, line in enumerate(lines) if re.fullmatch(r"daemons \d+", line))
    need(lines[events] == f"daemons {len(lines) - events - 1}", f"not so many events: {lines[events]}")
    return lines[:begin], lines[begin:events], lines[events + 1 :]


def judge_refusal(answer: Answer) -> None:
    """The plan couldn't be read, so nothing was begun."""
    need((answer.status, answer.text, answer.finished) == (5, "plan not read\n", None), f"not a refusal: {answer}")
    need(answer.faults == 1, f"{answer.faults} calls failed")


def judge_run(plan: Plan, answer: Answer, failing: dict[int, set[int]], desk: OneDesk | None) -> run_model.State:
    """A run in which these calls of these desks failed. On one thread a reckoning of the desk tells all that comes of it."""
    result, history, events = parts_of(answer.text)
    state = run_model.replay(plan, history)
    run_model.check_events(state, events)
    need(result == list(run_model.results(state)), f"the results are {result}")
    passed = state.are("task", list(range(len(plan.tasks))), "passed")
    need(answer.status == (0 if passed else 1), f"status {answer.status}")
    finished = sum(not line.endswith("| failed") for line in history[2:-1])
    need((answer.finished, answer.lawful) == (finished, "lawful"), f"{answer.finished} entries, {answer.lawful}")
    faults = [worker for unit, worker in state.order if state.outcomes[unit] == "fault"]
    need(len(faults) == answer.faults, f"{len(faults)} units met a fault, and {answer.faults} calls failed")
    for worker in set(faults):
        need(faults.count(worker) <= len(failing.get(worker, ())), f"worker {worker} met {faults.count(worker)} faults")
    for unit, outcome in state.outcomes.items():
        need(outcome in ("fault", plan.units[unit].work.value()), f"unit {unit} ended with {outcome}")
    if desk is not None:
        run_model.expect_of_one_desk(state, events, desk)
        need(desk.faults == answer.faults, f"{answer.faults} calls failed, not {desk.faults}")
    return state


class OnePlan:
    """The cases of a plan."""

    def __init__(self, number: int, program: str, folder: pathlib.Path) -> None:
        self.number, self.program, self.folder = number, program, folder
        self.plan = random_plan(number)
        self.alone = words(number, 1)

    def shared(self) -> str:
        files = {"plan.toml": self.plan.text(), **{name: text.decode() for name, text in run_model.FILES.items()}}
        return "Cases.\n\n" + "\n".join(f"--- file {name}\n{text}" for name, text in files.items())

    def answers(self, cases: list[Case]) -> list[Answer]:
        """Runs the program on these cases."""
        parts = [f"=== {place}\n" + "\n".join(f"--- {section}" for section in case.sections) + "\n" for place, case in enumerate(cases)]
        (self.folder / "cases.txt").write_text(self.shared() + "\n" + "\n".join(parts))
        with open(self.folder / "printed", "wb") as printed:
            status = subprocess.run([self.program, "cases.txt"], cwd=self.folder, stdout=printed).returncode
        need(status == 0, f"the program ended with status {status}")
        return list(read_answers((self.folder / "printed").read_bytes(), cases))

    def judge(self, cases: list[Case], counts: collections.Counter[str]) -> int:
        """Runs the cases, counts them, and says what is wrong with how many."""
        wrong = 0
        for case, answer in zip(cases, self.answers(cases), strict=True):
            counts[case.sort] += 1
            try:
                case.judge(answer)
            except (Wrong, ValueError, StopIteration, IndexError) as error:
                wrong += 1
                sections = [section for section in case.sections if len(section) < 80]
                print(f"WRONG: plan {self.number}, {case.sort}, {sections}: {error}\n  {str(answer)[:300]}")
        return wrong

    def undisturbed(self) -> None:
        """The run on one thread in which nothing fails, which the other cases are compared with."""
        case = Case("undisturbed", [f"words {self.alone} --history --daemons"], lambda _: None)
        self.whole = self.answers([case])[0]
        desk = OneDesk(set())
        # The first call reads the plan.
        desk.call()
        state = judge_run(self.plan, self.whole, {}, desk)
        self.calls = desk.calls
        self.result = "\n".join(run_model.results(state)) + "\n"
        self.history = [line for line in self.whole.text.splitlines() if re.match(r"\d+ w", line)]

    def on_one_thread(self, failing: set[int], sort: str, lie: int | None = None, digits: str = "") -> Case:
        sections = [f"words {self.alone} --history --daemons", *(f"fail desk 0 {call}" for call in sorted(failing))]
        if lie is not None:
            sections += [f"lie 0 {lie}", f"input {digits}"]

        def judge(answer: Answer) -> None:
            if 0 in failing:
                judge_refusal(answer)
                return
            desk = OneDesk(failing, set() if lie is None else {lie})
            desk.call()
            judge_run(self.plan, answer, {0: failing | desk.lies}, desk)

        return Case(sort, sections, judge)

    def desk_cases(self) -> Iterator[Case]:
        for call in range(self.calls + 2):
            yield self.on_one_thread({call}, "one call of the only desk fails")
            for digits in LIES:
                yield self.on_one_thread(set(), "one call of the only desk is answered by what is no reply", call, digits)
        draw = random.Random(self.number)
        for _ in range(PAIRS):
            yield self.on_one_thread(set(draw.sample(range(1, self.calls), 2)), "two calls of the only desk fail")

    def on_threads(self, failing: dict[int, set[int]], sort: str) -> Case:
        calls = [f"fail desk {desk} {call}" for desk, numbers in failing.items() for call in sorted(numbers)]

        def judge(answer: Answer) -> None:
            if 0 in failing.get(0, ()):
                judge_refusal(answer)
            else:
                judge_run(self.plan, answer, failing, None)

        return Case(sort, [f"words {words(self.number, THREADS)} --history --daemons", *calls], judge)

    def thread_cases(self) -> Iterator[Case]:
        for call in range(self.calls + 2):
            for desk in range(THREADS):
                yield self.on_threads({desk: {call}}, "one call of one of four desks fails")
            every = {desk: {call + (desk == 0)} for desk in range(THREADS)}
            yield self.on_threads(every, "one call of each of four desks fails")

    def room_cases(self, word: str, whole: bytes, status: int, sort: str, more: list[str] | None = None) -> Iterator[Case]:
        """The output takes each number of bytes, up to all."""
        for room in range(len(whole) + 1):

            def judge(answer: Answer, room: int = room) -> None:
                ended = (answer.status, answer.length, answer.digest)
                written = whole[:room]
                right = (6 if room < len(whole) else status, room, hashlib.sha256(written).hexdigest())
                need(ended == right, f"{ended}, not {right}")

            yield Case(sort, [f"words {word}", f"room {room}", "digest", *(more or [])], judge)

    def sink_cases(self) -> Iterator[Case]:
        whole = self.whole.text.encode()
        yield from self.room_cases(f"{self.alone} --history --daemons", whole, self.whole.status, "the output takes so many bytes")
        threads = words(self.number, THREADS)
        yield from self.room_cases(threads, self.result.encode(), self.whole.status, "the output of four threads takes so many bytes")
        summary = "".join(self.result.splitlines(True)[-3:]).encode()
        yield from self.room_cases(f"{self.alone} --summary", summary, self.whole.status, "the output of a summary takes so many bytes")

    def check_cases(self) -> Iterator[Case]:
        """`check` and `again` of the undisturbed history: each call of the input, of the desk and each length of the output."""
        given = ["input\n" + self.whole.text.removesuffix("\n")]
        lawful = f"lawful {len(self.history)}\n"
        end = re.search(r"(?m)^end \d+\n", self.whole.text).end()
        for command, whole in (("check", lawful), ("again", lawful.replace("lawful", "same"))):
            # No byte behind the history is taken, so some pieces are smaller: there are more calls than so many, and at most one a byte.
            least = math.ceil(end / PIECE)
            for call in [*range(least + MORE_CALLS), end]:
                expected = [(8, "input not read\n", 1)] if call < end else []
                expected += [(0, whole, 0)] if call >= least else []
                more = [f"pieces {PIECE}", f"fail take {call}", *given]
                yield self.told(f"{command}: one call of the input fails", command, more, *expected)
            yield from self.room_cases(f"{command} plan.toml", whole.encode(), 0, f"{command}: the output takes so many bytes", given)
            yield self.told(f"{command}: the plan isn't read", command, ["fail desk 0 0", *given], (5, "plan not read\n", 1))
        closings = [re.match(r"\d+ w\d+ (?:close|unblock) (\d+) [^|]+ \| (?!failed)", line) for line in self.history]
        for call, closing in enumerate((found for found in closings if found), 1):
            expected = (12, f"file not read {closing[1]}\n", 1)
            yield self.told("again: one call of the desk fails", "again", [f"fail desk 0 {call}", *given], expected)

    def told(self, sort: str, command: str, more: list[str], *expected: tuple[int, str, int]) -> Case:
        """A call of the program that ends in one of these ways."""

        def judge(answer: Answer) -> None:
            ended = (answer.status, answer.text, answer.faults)
            need(ended in expected, f"{ended}, not one of {expected}")

        return Case(sort, [f"words {command} plan.toml", *more], judge)

    def worker_cases(self) -> Iterator[Case]:
        """A worker that is asked for each item of the plan, and then told to stop."""
        asked = [unit for unit in self.plan.units if not unit.is_fetch]
        frames = [request(unit) for unit in asked]
        replies = [reply(unit.number, unit.work.value()) for unit in asked]
        stream = b"".join(frames) + b"\x03\0\0\0\0"
        given = [f"input {stream.hex()}"]
        # Where each frame begins, and where the Stop does.
        begins = [sum(map(len, frames[:place])) for place in range(len(frames) + 1)]
        for count in range(len(stream) + 1):
            whole = sum(begin <= count for begin in begins[1:])
            failed = (8, None, b"".join(replies[:whole])) if count < len(stream) else (0, None, b"".join(replies))
            yield self.served("worker: one call of the input fails", ["pieces 1", f"fail take {count}", *given], failed)
            at_edge = count in begins or count == len(stream)
            cut = (0 if at_edge else 7, None if at_edge else begins[whole], b"".join(replies[:whole]))
            yield self.served("worker: the input is cut", [f"input {stream[:count].hex()}"], cut)
        for call, unit in enumerate(asked):
            changed = [*replies[:call], reply(unit.number, "fault"), *replies[call + 1 :]]
            yield self.served("worker: one call of the desk fails", [f"fail desk 0 {call}", *given], (0, None, b"".join(changed)))
        yield from self.room_cases("worker", b"".join(replies), 0, "worker: the output takes so many bytes", given)

    def served(self, sort: str, more: list[str], expected: tuple[int, int | None, bytes]) -> Case:
        def judge(answer: Answer) -> None:
            ended = (answer.status, answer.place, bytes.fromhex(answer.text))
            need(ended == expected, f"{ended}, not {expected}")

        return Case(sort, ["words worker", *more], judge, shows_digits=True)


def request(unit: run_model.Unit) -> bytes:
    name = unit.work.file.encode()
    action = run_model.REPLY_ACTIONS[unit.work.do]
    body = unit.number.to_bytes(4) + bytes([action]) + len(name).to_bytes(2) + name
    return b"\x01" + len(body).to_bytes(4) + body


def reply(unit: int, outcome: str) -> bytes:
    word, _, value = outcome.partition(" ")
    spelled = {
        "number": lambda: b"\x01" + int(value).to_bytes(8),
        "digest": lambda: b"\x02" + bytes.fromhex(value),
        "missing": lambda: b"\x03",
        "fault": lambda: b"\x05",
    }[word]()
    body = unit.to_bytes(4) + spelled
    return b"\x02" + len(body).to_bytes(4) + body


def read_answers(printed: bytes, cases: list[Case]) -> Iterator[Answer]:
    """What the program printed of each case, in order."""
    place = 0
    for number, case in enumerate(cases):
        title = f"=== {number}\n".encode()
        need(printed[place : place + len(title)] == title, f"case {number} isn't told of")
        end = printed.index(b"\n", place + len(title))
        line = printed[place + len(title) : end].decode()
        head = HEAD.fullmatch(line)
        need(head is not None, f"no answer: {line}")
        length, place = int(head[6]), end + 1
        written = 0 if head[7] else length * (1 + case.shows_digits)
        text = printed[place : place + written].decode()
        place += written + (written > 0 and not text.endswith("\n"))
        numbers = [None if number is None else int(number) for number in head.group(1, 2, 3)]
        yield Answer(*numbers, head[4], int(head[5] or 0), length, head[7], text)


def main() -> None:
    default = measure.TOP / "crates/gate_cases/out/gate_cases"
    program = pathlib.Path(sys.argv[1]).resolve() if len(sys.argv) > 1 else default
    if not os.access(program, os.X_OK):
        sys.exit(f"there is no program {program}: run rt run once in crates/gate_cases")
    plans = int(sys.argv[2]) if len(sys.argv) > 2 else 10
    wanted = sys.argv[3] if len(sys.argv) > 3 else ""
    step = int(sys.argv[4]) if len(sys.argv) > 4 else 1
    counts: collections.Counter[str] = collections.Counter()
    units, wrong = 0, 0
    with tempfile.TemporaryDirectory(prefix="failing-calls-") as folder:
        for number in range(plans):
            one = OnePlan(number, str(program), pathlib.Path(folder))
            one.undisturbed()
            units += len(one.plan.units)
            for cases in (one.desk_cases(), one.thread_cases(), one.sink_cases(), one.check_cases(), one.worker_cases()):
                wrong += one.judge([case for case in cases if wanted in case.sort][::step], counts)
    print(f"{plans} plans with {units} units")
    for sort, count in counts.items():
        print(f"  {count} runs: {sort}")
    print(f"{sum(counts.values()) - wrong} of {sum(counts.values())} runs ended as they should")
    sys.exit(bool(wrong))


if __name__ == "__main__":
    main()
