"""What the benches share: programs over copies of the crates, and counts of what a run takes.

A small program of a bench stands in bench/programs/NAME, laid out as a crate. Its files end in .rattle and .proof, since a
.rt or .antt file may stand only in a crate that crates.txt lists, and get their own endings in the copy.
"""

import collections.abc
import dataclasses
import os
import pathlib
import re
import shutil
import subprocess
import sys
import tempfile

TOP = pathlib.Path(__file__).resolve().parent.parent
PROGRAMS = TOP / "bench/programs"
ENDINGS = {".rattle": ".rt", ".proof": ".antt"}

# glibc clears and copies large pieces by one instruction of which callgrind counts each byte. With this setting it doesn't.
STEPWISE = {
    "GLIBC_TUNABLES": "glibc.cpu.x86_rep_stosb_threshold=100000000:glibc.cpu.x86_rep_movsb_threshold=100000000"
}

Words = list[str]

# The first line of a printed history, of the version without a number of locks or of that with one.
HISTORY = re.compile(r"^history [12]$", re.MULTILINE)


def skip_without(*tools: str) -> None:
    """Ends the bench, with status 0, where one of the tools is missing."""
    for tool in tools:
        if shutil.which(tool) is None:
            print(f"skipped: there is no {tool} here")
            sys.exit(0)


def leases_program() -> str:
    """The program `leases`: the script's first word, or the one that `./leases` builds."""
    program = pathlib.Path(sys.argv[1]).resolve() if len(sys.argv) > 1 else TOP / "out/leases"
    if not os.access(program, os.X_OK):
        sys.exit(f"there is no program {program}: run ./leases once")
    return str(program)


def with_those_below(crate: str) -> list[str]:
    """A crate of this repository behind those that it stands on, as crates.txt has them."""
    used = {}
    for line in (TOP / "crates.txt").read_text().splitlines():
        name, _, libraries = line.partition(":")
        used[name.split(" ")[0]] = libraries.split()
    found = []

    def add(name: str) -> None:
        if name in used and name not in found:
            for library in used[name]:
                add(library)
            found.append(name)

    add(crate)
    return found


def split_history(printed: str) -> tuple[str, str]:
    """What was printed before the history, and the history from its first line on."""
    found = HISTORY.search(printed)
    if found is None:
        sys.exit(f"no history was printed:\n{printed}")
    return printed[: found.start()], printed[found.start() :]


class Workshop:
    """A repository in a folder of its own: copies of some crates with their lines in crates.txt, and programs over them."""

    def __init__(self, folder: pathlib.Path, crates: list[str]) -> None:
        self.folder = folder
        lines = (TOP / "crates.txt").read_text().splitlines()
        self.lines = [line for line in lines if line.split(":")[0] in crates]
        skipped = shutil.ignore_patterns("out", "must-fail")
        for crate in crates:
            shutil.copytree(TOP / "crates" / crate, folder / "crates" / crate, ignore=skipped)
        shutil.copy(TOP / "HANDLES", folder)
        subprocess.run(["git", "init", "-q"], cwd=folder, check=True)

    def add(self, name: str, *libraries: str) -> None:
        """Adds the program of this name over these libraries."""
        crate = self.folder / "crates" / name
        for source in sorted(path for path in (PROGRAMS / name).rglob("*") if path.is_file()):
            place = crate / source.relative_to(PROGRAMS / name).with_suffix(ENDINGS[source.suffix])
            place.parent.mkdir(parents=True, exist_ok=True)
            shutil.copy(source, place)
        self.lines.append(f"{name}: {' '.join(libraries)}")
        (self.folder / "crates.txt").write_text("\n".join(self.lines) + "\n")

    def build(self, name: str, *flags: str) -> str:
        """Proves and builds a program as the gate does, and gives back a copy of it."""
        crate = self.folder / "crates" / name
        built = crate / "out" / name
        built.unlink(missing_ok=True)
        run = subprocess.run(["rt", "run", *flags], cwd=crate, stdin=subprocess.DEVNULL, capture_output=True, text=True)
        if not built.exists():
            sys.exit(f"{name} wasn't built:\n{run.stdout}{run.stderr}")
        return str(shutil.copy(built, self.folder / "-".join([name, *flags])))


def report_on(name: str, crates: list[str], report: collections.abc.Callable[[str], None], *libraries: str) -> None:
    """Reports on the program of this name: that of the script's first word, or one built over copies of these crates, and libraries of the kit."""
    if len(sys.argv) > 1:
        report(str(pathlib.Path(sys.argv[1]).resolve()))
        return
    skip_without("rt")
    with tempfile.TemporaryDirectory() as folder:
        workshop = Workshop(pathlib.Path(folder), crates)
        workshop.add(name, *crates, *libraries)
        report(workshop.build(name))


@dataclasses.dataclass
class Ran:
    """What a run under a tool printed, and what the tool said of it."""

    output: bytes
    said: str


def run_under(
    tool: Words,
    words: Words,
    folder: pathlib.Path | None = None,
    given: bytes = b"",
    settings: dict[str, str] | None = None,
    by_file: bool = False,
) -> Ran:
    """Runs the words under a tool. They are given these bytes by a pipe, or by a file."""
    with tempfile.TemporaryFile() as file:
        file.write(given)
        file.seek(0)
        source = {"stdin": file} if by_file else {"input": given}
        run = subprocess.run([*tool, *words], cwd=folder, capture_output=True, env=os.environ | (settings or {}), **source)
    return Ran(run.stdout, run.stderr.decode(errors="replace"))


def count_instructions(
    words: Words,
    expected: bytes | None = None,
    profile: str = "/dev/null",
    **how: object,
) -> tuple[int, bytes]:
    """The instructions that callgrind counts of a run, and what the run printed, which is compared with what is expected."""
    ran = run_under(["valgrind", "--tool=callgrind", f"--callgrind-out-file={profile}"], words, **how)
    found = re.search(r"Collected\s*:\s*(\d+)", ran.said)
    if found is None:
        sys.exit(f"callgrind printed no count:\n{ran.said}")
    if expected is not None and ran.output != expected:
        sys.exit(f"{words} printed {ran.output!r}, not {expected!r}")
    return int(found.group(1)), ran.output


def count_system_calls(words: Words, expected: bytes | None = None, **how: object) -> dict[str, int]:
    """How often a run made each system call."""
    ran = run_under(["strace", "-f", "-c", "-U", "calls,name"], words, **how)
    if expected is not None and ran.output != expected:
        sys.exit(f"{words} printed {ran.output!r}, not {expected!r}")
    rows = [re.fullmatch(r"\s*(\d+)\s+(\w+)", line) for line in ran.said.splitlines()]
    return {row.group(2): int(row.group(1)) for row in rows if row is not None and row.group(2) != "total"}


@dataclasses.dataclass
class Usage:
    """What a run took: peak memory, seconds of a processor, page faults, and the status that it ended with."""

    kilobytes: int
    seconds: float
    page_faults: int
    status: int


def usage_of(words: Words, folder: pathlib.Path | None = None) -> Usage:
    """What GNU time says of a run. Its own memory is small; a process that Python starts would begin with Python's peak."""
    with tempfile.NamedTemporaryFile("r") as said:
        call = ["time", "-q", "-f", "%M %U %S %R", "-o", said.name, *words]
        run = subprocess.run(call, cwd=folder, stdin=subprocess.DEVNULL, stdout=subprocess.DEVNULL)
        kilobytes, user, system, page_faults = said.read().split()
    return Usage(int(kilobytes), float(user) + float(system), int(page_faults), run.returncode)
