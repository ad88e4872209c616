#!/usr/bin/env python3
"""Runs plans beside worker processes that die, lie or don't listen, and with outputs and systems that fail.

Each case says what the run has to print and its status. A run that takes more than ten seconds hangs (a minute, where 200
worker processes are started), and a worker process that is still there a second after its run is left behind: both fail. Not
part of the gate.

    bench/failing_children.py [PROGRAM [PART OF A CASE'S NAME]]

Measured: all 100 runs ended as they should, a storm of 200 items that each kill their worker process too. 20 worker processes that are one
too many and take half a second each to stop made a run of one lease 2.4 s longer, where a stop before the close makes it 10.9.
"""

import collections.abc
import dataclasses
import os
import pathlib
import re
import resource
import shutil
import signal
import subprocess
import sys
import tempfile
import time

import measure

FILE = b"one\ntwo\nthree\n"
LINES, BYTES = "3", "14"
REPLY_BYTES = 19
MOST_SECONDS = 10
# For 200 worker processes, and for the start of many.
STORM_SECONDS = 60
# A user that nothing else runs as, since the limit of processes counts all of a user.
LONELY_USER = 64_321

# A child. `DOES` says what the first one does with its first request; it and all others answer every other request as they should.
CHILD = """#!%s -IS
import os, signal, struct, sys, time
does, _, number = os.environ.get("DOES", "answers").partition(" ")
open("started-%%d" %% os.getpid(), "w").close()

def first():
    try:
        os.close(os.open("first", os.O_CREAT | os.O_EXCL))
        return True
    except FileExistsError:
        return False

def read(count):
    got = b""
    while len(got) < count:
        piece = os.read(0, count - len(got))
        if not piece:
            return None
        got += piece
    return got

def reply(unit, mode, action):
    return b"\\x12" + struct.pack(">IIBBQ", 14, unit, mode, 1, {1: 3, 4: 14}.get(action, 14))

odd = first()
if odd and does == "ends":
    sys.exit()
if odd and does == "falls":
    os.kill(os.getpid(), signal.SIGKILL)
if odd and does == "ignores-all":
    os.close(0)
    time.sleep(0.5)
    sys.exit()
if odd and does == "falls-silent":
    os.close(1)
    time.sleep(60)
if odd and does == "hastens":
    os.write(1, reply(0, 1, 1))
while True:
    head = read(5)
    if head is None or head[0] == 3:
        if does == "lingers":
            time.sleep(0.5)
        if does == "ignores" and head is not None:
            continue
        break
    body = read(struct.unpack(">I", head[1:])[0])
    unit, mode, action = struct.unpack(">IBB", body[:6])
    right = reply(unit, mode, action)
    if does == "speaks-version-1":
        right = b"\\x02" + struct.pack(">I", 13) + right[5:9] + right[10:]
    if odd and does == "cut":
        os.write(1, right[: int(number)])
        break
    if odd and does == "killed":
        os.write(1, right[: int(number)])
        os.kill(os.getpid(), signal.SIGKILL)
    if odd and does == "closes":
        os.write(1, right[: int(number)])
        os.close(1)
        time.sleep(60)
    if odd and does == "lies":
        os.write(1, bytes.fromhex(number))
        time.sleep(60)
    if odd and does == "hastens":
        odd = False
        continue
    if odd and does == "repeats":
        right += right
    os.write(1, right)
    if odd and does == "stops-listening":
        os.close(0)
        time.sleep(0.5)
        break
    odd = False
""" % sys.executable

# Children of many, which start fast: one that dies at its first request, and one that works on it until its input ends.
SMALL_CHILDREN = {
    "dies": '#!/bin/sh\n: >"started-$$"\nhead -c 1 >/dev/null\nkill -9 $$\n',
    "works": '#!/bin/sh\n: >"started-$$"\nexec cat 3>&1 >/dev/null\n',
}


@dataclasses.dataclass
class Case:
    """A run: what its children do, its executable and items, and what it has to print of them."""

    name: str
    does: str
    outcomes: list[str]
    executable: str = "./child"
    threads: int = 1
    leases: int = 32
    # How many sets of requirements the items name in turn, none of which covers another.
    sets: int = 1
    limits: dict[int, int] = dataclasses.field(default_factory=dict)
    user: int | None = None
    seconds: int = MOST_SECONDS

    def plan(self) -> str:
        item = '\n[[task.action.item]]\ndo = "{}"\nfile = "a.txt"\nisolation = "process"\nrequirements = "r{}"\n'
        items = "".join(item.format(("lines", "bytes")[n % 2], n % self.sets) for n in range(len(self.outcomes)))
        asked = '[[requirements]]\nname = "r{0}"\nexecutable = "{1}"\nargs = ["{0}"]\n\n'
        sets = "".join(asked.format(number, self.executable) for number in range(self.sets))
        head = '[[project]]\nname = "p"\n\n' + sets + '[[task]]\nname = "t"\nproject = "p"\n'
        return head + "\n[[task.action]]\nwait = \"release\"\n" + items

    def expected(self) -> tuple[str, int]:
        failed = sum(not outcome.isdigit() for outcome in self.outcomes)
        passed = len(self.outcomes) - failed
        lines = [f"task t {'failed' if failed else 'passed'}"]
        lines += [f"  {('lines', 'bytes')[n % 2]} a.txt {outcome}" for n, outcome in enumerate(self.outcomes)]
        lines.append(f"tasks: {int(not failed)} passed, {int(bool(failed))} failed, 0 skipped")
        lines.append(f"units: {passed} passed, {failed} failed, 0 skipped")
        lines.append(f"total: {sum(int(outcome) for outcome in self.outcomes if outcome.isdigit())}")
        return "\n".join(lines) + "\n", int(bool(failed))

    def settle(self) -> None:
        """Sets the limits and the user of a process that is about to become the program."""
        for which, limit in self.limits.items():
            resource.setrlimit(which, (limit, limit))
        if self.user is not None:
            os.setgroups([])
            os.setresgid(self.user, self.user, self.user)
            os.setresuid(self.user, self.user, self.user)


def cases() -> collections.abc.Iterator[Case]:
    for cut in range(REPLY_BYTES):
        for how in ("cut", "killed", "closes"):
            yield Case(f"first child: {how} after {cut} bytes of its reply", f"{how} {cut}", ["fault", BYTES])
    for name, lie in {
        "a request": "110000000d000000000101000561" + "2e747874",
        "a stop": "0300000000",
        "a reply for another unit": "120000000e0000000101010000000000000003",
        "a reply in the other mode": "120000000e0000000002010000000000000003",
        "a reply of version 1": "020000000d00000000010000000000000003",
        "a reply with a fault": "1200000006" + "00000000" + "01" + "05",
        "no frame": "ff00000000",
        "a frame that is too long": "12ffffffff",
    }.items():
        yield Case(f"first child: answers with {name}, and doesn't end", f"lies {lie}", ["fault", BYTES])
    yield Case("first child: ends before it is asked", "ends", ["fault", BYTES])
    yield Case("first child: is killed before it is asked", "falls", ["fault", BYTES])
    yield Case("first child: closes its input before it is asked, and ends later", "ignores-all", ["fault", BYTES])
    yield Case("first child: closes its output before it is asked", "falls-silent", ["fault", BYTES])
    yield Case("first child: closes its input behind its first reply, and ends later", "stops-listening", [LINES, "fault", LINES])
    yield Case("first child: answers before it is asked", "hastens", [LINES, BYTES])
    yield Case("first child: gives its first reply twice", "repeats", [LINES, "fault", LINES])
    yield Case("children that speak version 1 alone", "speaks-version-1", ["fault", "fault"])
    yield Case("children that ignore Stop", "ignores", [LINES, BYTES])
    yield Case("children that take half a second to stop", "lingers", [LINES, BYTES])
    yield Case("every child dies, 200 items, 32 threads", "dies", ["fault"] * 200, executable="./dies", threads=32, seconds=STORM_SECONDS)
    for name in ("./not-there", "./not-executable", "./folder"):
        yield Case(f"executable {name}", "answers", ["fault", "fault"], executable=name)
    yield Case("no more descriptors", "answers", ["fault", "fault"], limits={resource.RLIMIT_NOFILE: 5})
    if os.geteuid() == 0:
        # The run itself and its one worker are the two that are allowed.
        limits = {resource.RLIMIT_NPROC: 2}
        yield Case("no more processes", "answers", ["fault", "fault"], limits=limits, user=LONELY_USER)


class Folder:
    """A folder of a run, with its plan, its file and its children."""

    def __init__(self, folder: pathlib.Path, case: Case) -> None:
        self.folder, self.case = folder, case
        folder.chmod(0o777)
        (folder / "plan.toml").write_text(case.plan())
        (folder / "a.txt").write_bytes(FILE)
        (folder / "folder").mkdir()
        for name, mode in (("child", 0o755), ("not-executable", 0o644)):
            (folder / name).write_text(CHILD)
            (folder / name).chmod(mode)
        for name, text in SMALL_CHILDREN.items():
            (folder / name).write_text(text)
            (folder / name).chmod(0o755)

    def start(self, program: str, words: list[str] = [], **streams: object) -> subprocess.Popen[str]:
        call = [program, "run", "plan.toml", "--threads", str(self.case.threads), "--max-workers", str(self.case.leases), *words]
        settings = {**os.environ, "DOES": self.case.does}
        return subprocess.Popen(
            call, cwd=self.folder, env=settings, stdin=subprocess.DEVNULL, text=True, preexec_fn=self.case.settle, **streams
        )

    def started(self) -> list[int]:
        """The numbers of all children that were started."""
        return [int(path.name.removeprefix("started-")) for path in self.folder.glob("started-*")]

    def left_behind(self) -> list[int]:
        """The children that are still there after a second."""
        end = time.monotonic() + 1
        while time.monotonic() < end and any(is_running(child) for child in self.started()):
            time.sleep(0.02)
        return [child for child in self.started() if is_running(child)]


def is_running(process: int) -> bool:
    try:
        state = pathlib.Path(f"/proc/{process}/stat").read_text().rpartition(")")[2].split()[0]
    except (FileNotFoundError, ProcessLookupError):
        return False
    return state != "Z"


def in_folder(case: Case, tried: collections.abc.Callable[[Folder], str]) -> str:
    """What is wrong with a run in a folder of its own, or nothing."""
    # A child that is just starting when its run ends may still write its mark while the folder is removed.
    with tempfile.TemporaryDirectory(prefix="children-", ignore_cleanup_errors=True) as name:
        folder = Folder(pathlib.Path(name), case)
        try:
            wrong = tried(folder)
        except subprocess.TimeoutExpired:
            wrong = f"it took more than {case.seconds} seconds"
        left = folder.left_behind()
        for child in left:
            os.kill(child, signal.SIGKILL)
        return wrong or (f"{len(left)} worker processes are left behind" if left else "")


def try_case(program: str, case: Case) -> str:
    def tried(folder: Folder) -> str:
        run = folder.start(program, stdout=subprocess.PIPE, stderr=subprocess.PIPE)
        try:
            printed, _ = run.communicate(timeout=case.seconds)
        except subprocess.TimeoutExpired:
            run.kill()
            raise
        text, status = case.expected()
        if len(folder.started()) > len(case.outcomes):
            return f"{len(folder.started())} worker processes were started for {len(case.outcomes)} items"
        if (printed, run.returncode) != (text, status):
            return f"status {run.returncode}, not {status}, and it printed:\n{printed}"
        return ""

    return in_folder(case, tried)


def wait_for(run: subprocess.Popen[str]) -> int:
    """The status of a run that has to end by itself."""
    try:
        return run.wait(MOST_SECONDS)
    except subprocess.TimeoutExpired:
        run.kill()
        raise


def try_full_disk(program: str) -> str:
    def tried(folder: Folder) -> str:
        with open("/dev/full", "w") as full:
            status = wait_for(folder.start(program, stdout=full))
        return "" if status == 6 else f"status {status}, not 6"

    return in_folder(Case("", "answers", [LINES, BYTES]), tried)


def try_closed_pipe(program: str, ignored: bool) -> str:
    """A pipe that nobody reads. Where the signal of such a write is ignored from the start, it has to be the same."""

    def tried(folder: Folder) -> str:
        source, sink = os.pipe()
        os.close(source)
        run = folder.start(program, stdout=sink, restore_signals=not ignored)
        os.close(sink)
        status = wait_for(run)
        return "" if status == 6 else f"status {status}, not 6"

    return in_folder(Case("", "answers", [LINES, BYTES]), tried)


def try_stream(program: str, words: str, expected: int) -> str:
    """A command of a shell, whose streams are closed, full or no files."""

    def tried(folder: Folder) -> str:
        run = subprocess.Popen(["sh", "-c", words, program], cwd=folder.folder, stdin=subprocess.DEVNULL, stdout=subprocess.DEVNULL)
        status = wait_for(run)
        return "" if status == expected else f"status {status}, not {expected}"

    return in_folder(Case("", "answers", [LINES, BYTES]), tried)


# A command, in which $0 is the program, and the status that it has to have.
STREAMS = {
    "a worker's output is a full disk": ("printf '%b' '\\01\\0\\0\\0\\014\\0\\0\\0\\07\\01\\0\\05a.txt' | \"$0\" worker >/dev/full", 6),
    "a made plan's output is a full disk": ('"$0" make 7 a.txt >/dev/full', 6),
    "the output is closed": ('"$0" run plan.toml --threads 1 >&-', 6),
    "refused words, and the output is a full disk": ('"$0" >/dev/full', 6),
    "a worker's input is closed": ('"$0" worker <&-', 8),
    "a worker's input is a folder": ('"$0" worker <folder', 8),
    "the input of check is a folder": ('"$0" check plan.toml <folder', 8),
    "the plan is a folder": ('"$0" run folder', 5),
    "the plan isn't there": ('"$0" run none.toml', 4),
}


def try_signal(program: str, number: int) -> str:
    """A run that is ended by a signal while 32 threads and their children work. Each child ends at the end of its input."""

    def tried(folder: Folder) -> str:
        run = folder.start(program, stdout=subprocess.PIPE)
        end = time.monotonic() + STORM_SECONDS
        while len(folder.started()) < 16 and time.monotonic() < end:
            time.sleep(0.1)
        if len(folder.started()) < 16:
            run.kill()
            return f"only {len(folder.started())} worker processes had been started"
        run.send_signal(number)
        printed, _ = run.communicate(timeout=MOST_SECONDS)
        return "" if run.returncode == -number and not printed else f"status {run.returncode}"

    return in_folder(Case("", "answers", [BYTES] * 64, executable="./works", threads=32), tried)


def try_spares(program: str) -> str:
    """28 items that each need a worker process of their own, on four threads with one lease. At the end of 20 of them one process too
    many is idle, and is stopped, which takes half a second. Meanwhile the others use the lease."""
    seconds = {}

    def tried(folder: Folder) -> str:
        start = time.monotonic()
        run = folder.start(program, stdout=subprocess.PIPE)
        printed, _ = run.communicate(timeout=STORM_SECONDS)
        seconds[folder.case.does] = time.monotonic() - start
        return "" if (printed, run.returncode) == folder.case.expected() else f"status {run.returncode}, and it printed:\n{printed}"

    for does in ("answers", "lingers"):
        case = Case("", does, [LINES, BYTES] * 14, threads=4, leases=1, sets=28)
        if wrong := in_folder(case, tried):
            return wrong
    longer = seconds["lingers"] - seconds["answers"]
    return "" if longer < 6 else f"it took {longer:.1f} s longer where 20 processes take half a second each to stop"


def try_time_limit(program: str) -> str:
    """The example of a time limit, which has to print what its page says."""

    def tried(folder: Folder) -> str:
        example = folder.folder / "examples/time-limit"
        shutil.copytree(measure.TOP / "examples/time-limit", example)
        (folder.folder / "leases").symlink_to(program)
        page = (example / "README.md").read_text()
        words, expected = re.search(r"```sh\n(.*)\n```", page)[1], re.search(r"```text\n(.*?)```", page, re.S)[1]
        run = subprocess.run(words.split(), cwd=example, stdin=subprocess.DEVNULL, capture_output=True, text=True, timeout=MOST_SECONDS)
        right = (run.returncode, run.stdout) == (1, expected)
        return "" if right else f"status {run.returncode}, and it printed:\n{run.stdout}"

    return in_folder(Case("", "answers", [LINES, BYTES]), tried)


def try_own_program(program: str) -> str:
    """`self` is the running program, also where its file is gone and it was called by another name."""

    def tried(folder: Folder) -> str:
        copy = folder.folder / "copy"
        shutil.copy(program, copy)
        os.mkfifo(folder.folder / "gate")
        text = (folder.folder / "plan.toml").read_text()
        first = '\n[[task]]\nname = "wait"\nproject = "p"\n\n[[task.action]]\nwait = "retain"\n'
        first += '\n[[task.action.item]]\ndo = "bytes"\nfile = "gate"\n'
        text = text.replace('name = "t"\n', 'name = "t"\nafter = ["wait"]\n') + first
        (folder.folder / "plan.toml").write_text(text)
        call = ["another-name", "run", "plan.toml", "--threads", "1"]
        streams = {"stdin": subprocess.DEVNULL, "stdout": subprocess.PIPE}
        run = subprocess.Popen(call, executable=copy, cwd=folder.folder, text=True, **streams)
        with open(folder.folder / "gate", "w") as gate:
            copy.unlink()
            gate.write("x")
        printed, _ = run.communicate(timeout=MOST_SECONDS)
        right = "  lines a.txt 3\n  bytes a.txt 14\n" in printed and run.returncode == 0
        return "" if right else f"status {run.returncode}, and it printed:\n{printed}"

    return in_folder(Case("", "answers", [LINES, BYTES], executable="self"), tried)


def main() -> None:
    program = measure.leases_program()
    tries = [(case.name, lambda case=case: try_case(program, case)) for case in cases()]
    tries += [
        ("standard output is a full disk", lambda: try_full_disk(program)),
        ("standard output is a pipe that nobody reads", lambda: try_closed_pipe(program, False)),
        ("standard output is a pipe that nobody reads, its signal ignored", lambda: try_closed_pipe(program, True)),
        ("a time limit for worker processes", lambda: try_time_limit(program)),
        ("worker processes that are one too many", lambda: try_spares(program)),
        ("`self`, with the program's file removed", lambda: try_own_program(program)),
    ]
    for name, (words, status) in STREAMS.items():
        tries.append((name, lambda words=words, status=status: try_stream(program, words, status)))
    for number in (signal.SIGTERM, signal.SIGINT, signal.SIGHUP, signal.SIGKILL):
        tries.append((f"{number.name} ends the run", lambda number=number: try_signal(program, number)))
    wanted = sys.argv[2] if len(sys.argv) > 2 else ""
    tries = [(name, tried) for name, tried in tries if wanted in name]
    failed = 0
    for name, tried in tries:
        start = time.monotonic()
        wrong = tried()
        failed += bool(wrong)
        if wrong:
            print(f"FAILED in {time.monotonic() - start:.1f} s: {name}: {wrong}")
    print(f"{len(tries) - failed} of {len(tries)} runs ended as they should")
    sys.exit(bool(failed))


if __name__ == "__main__":
    main()
