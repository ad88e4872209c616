#!/usr/bin/env python3
"""Compares the item actions with the system's tools, and counts their instructions.

Makes its files, and builds three small programs over the crates item_actions and file_access, in a temporary folder. It
builds the first as the gate does, for x86-64-v2, and where this machine can run it also for x86-64-v3. On small files and
on text and random bytes of 64 MiB it compares the answers with those of wc, grep and sha256sum. On the large ones it
prints for each action the instructions a byte that callgrind counts, and the least time of three rounds beside the
time of the tool. Two further programs give the instructions a byte of a test of a file's name, and of a text of it,
and the page faults of reading files of 4 MiB one after the other. Not part of the gate. Skips, with status 0, where
valgrind, GNU time or rt is missing; ends with status 1 where an answer differs or a goal is missed.

An action's count is that of a run with one round less that of a run without, so the reading of the file isn't in it.
That matters: the C library clears large buffers by one instruction, `rep stosb`, which callgrind counts once a byte.

    bench/item_actions.py [MIB]

Measured: instructions a byte of text, of a random byte, and by a build for x86-64-v3: lines 0.42, 0.42, 0.16; words 1.09, 1.09, 0.50;
longest 0.77, 0.50, 0.56 and 0.28; count of `the` 1.14, 0.75, 0.68 and 0.47; of `t` 0.41, 0.41, 0.16; sha256 47.8, 47.8, 42.6. A file's name
is tested at 11 to 13 a byte. 64 files of 4 MiB take 0.44 a byte and 1,106 page faults.
"""

import pathlib
import random
import subprocess
import sys
import tempfile
import time

import measure

BELOW = ["item_actions", "file_access"]
NEEDLE = "the"

# The processor that the gate builds for.
GATE_CPU = "x86-64-v2"

# The most instructions a byte of a program that is built for it.
GOALS = {"lines": 0.45, "words": 1.2, "bytes": 0.01, "longest": 1.2, "count": 2.2, "count-byte": 0.45, "sha256": 50.0}

# Names of files, and how often each is tested.
NAMES = ["src/main/some_file-name.txt", "src/" + "a" * 247 + ".txt"]
TESTS = 1000

# How many files are read one after the other, and the bytes of each.
READS = [1, 3, 64]
FILE_BYTES = 4 << 20

COMMON_WORDS = (
    "the of and a to in is you that it he was for on are as with his they at be this have from or one had by word"
    " but not what all were we when your can said there use an each which she do how their if will up other about"
    " out many then them these so some her would make like him into time has look two more write go see number no"
    " way could people my than first water been call who oil its now find long down day did get come made may part"
).split()


def text_of(size: int) -> bytes:
    """Lines of common words, up to 72 bytes each."""
    source = random.Random(1)
    lines, made, line = [], 0, ""
    while made < size:
        word = source.choice(COMMON_WORDS)
        if len(line) + len(word) > 71:
            lines.append(line + "\n")
            made += len(line) + 1
            line = word
        else:
            line = f"{line} {word}".lstrip()
    return "".join(lines).encode()[:size]


def small_files() -> list[bytes]:
    source = random.Random(2)
    letters = b"the \n\t\r\x0b\x0c\x00\xc3"
    return [bytes(source.choice(letters) for _ in range(size)) for size in range(0, 200)]


def runs_v3() -> bool:
    """Whether this machine's processors have what x86-64-v3 asks for."""
    cpuinfo = pathlib.Path("/proc/cpuinfo")
    flags = set(cpuinfo.read_text().split()) if cpuinfo.exists() else set()
    return {"avx2", "bmi1", "bmi2", "f16c", "fma", "abm", "movbe"} <= flags


class Probe:
    def __init__(self, program: str) -> None:
        self.program = program

    def words(self, action: str, rounds: int, file: pathlib.Path) -> list[str]:
        word, _, one_byte = action.partition("-")
        return [self.program, word, NEEDLE[0] if one_byte else NEEDLE, str(rounds), str(file)]

    def answer(self, action: str, file: pathlib.Path, rounds: int = 1) -> tuple[str, float]:
        """The outcome, and the least time in seconds."""
        run = subprocess.run(self.words(action, rounds, file), capture_output=True, text=True, check=True)
        outcome, nanoseconds = run.stdout.split()
        return outcome, int(nanoseconds) / 1e9

    def instructions(self, action: str, file: pathlib.Path) -> int:
        """Those of one round: of a run with it, less one without."""
        with_it, without = (measure.count_instructions(self.words(action, rounds, file))[0] for rounds in (1, 0))
        return with_it - without


def output_of(*words: str) -> str:
    return subprocess.run(words, capture_output=True, text=True, env={"LC_ALL": "C", "PATH": "/usr/bin:/bin"}).stdout


def tool_answer(action: str, file: pathlib.Path) -> str:
    """What the system's tool says. wc's count of words leaves runs without a printable byte out, and its longest
    line counts columns, so these two are worked out here from the bytes where a file isn't plain text."""
    name = str(file)
    if action == "lines":
        return output_of("wc", "-l", name).split()[0]
    if action == "bytes":
        return output_of("wc", "-c", name).split()[0]
    if action == "sha256":
        return output_of("sha256sum", name).split()[0]
    if action.startswith("count"):
        needle = NEEDLE if action == "count" else NEEDLE[0]
        return str(output_of("grep", "-a", "-o", "-F", "-e", needle, name).count("\n"))
    data = file.read_bytes()
    plain = all(byte == 10 or 32 <= byte < 127 for byte in data[: 1 << 20])
    if plain:
        return output_of("wc", "-w" if action == "words" else "-L", name).split()[0]
    if action == "words":
        return str(len(data.split()))
    return str(max(len(line) for line in data.split(b"\n")))


def tool_time(action: str, file: pathlib.Path) -> float:
    words = {
        "lines": ["wc", "-l"], "words": ["wc", "-w"], "bytes": ["wc", "-c"], "longest": ["wc", "-L"],
        "count": ["grep", "-a", "-o", "-F", "-e", NEEDLE], "count-byte": ["grep", "-a", "-o", "-F", "-e", NEEDLE[0]],
        "sha256": ["sha256sum"],
    }[action]
    start = time.monotonic()
    output_of(*words, str(file))
    return time.monotonic() - start


def compare(probe: Probe, file: pathlib.Path, what: str) -> bool:
    same = True
    for action in GOALS:
        ours, theirs = probe.answer(action, file)[0], tool_answer(action, file)
        if ours != theirs:
            print(f"{what}: {action} is {ours}, the tool says {theirs}")
            same = False
    return same


def measure_actions(probe: Probe, file: pathlib.Path, what: str, cpu: str) -> bool:
    """The figures of each action. The goals are those of the processor that the gate builds for."""
    within = True
    size = file.stat().st_size
    for action, goal in GOALS.items():
        a_byte = probe.instructions(action, file) / size
        _, ours = probe.answer(action, file, 3)
        theirs = tool_time(action, file)
        judged = cpu == GATE_CPU
        print(
            f"{cpu} {what:6} {action:10} {a_byte:6.2f} instructions a byte{f' (goal {goal:5.2f})' if judged else ''},"
            f" {ours * 1000:8.1f} ms, the tool {theirs * 1000:8.1f} ms"
        )
        within = within and (not judged or a_byte <= goal)
    return within


def measure_names(program: str, file: pathlib.Path) -> None:
    for name in NAMES:
        file.write_text(name)
        form, text = (
            measure.count_instructions([program, word, str(TESTS), str(file)])[0]
            - measure.count_instructions([program, word, "0", str(file)])[0]
            for word in ("name", "text")
        )
        tested = len(name) * TESTS
        print(
            f"a name of {len(name)} bytes: its form {form / tested:.1f}, its text {text / tested:.1f} instructions a byte"
        )


def page_faults(program: str, names: list[str]) -> int:
    used = measure.usage_of([program, *names])
    if used.status != 0:
        sys.exit(f"the reading program ended with {used.status}")
    return used.page_faults


def measure_faults(program: str, folder: pathlib.Path) -> None:
    """The page faults of a run that reads so many files, less those of a run that reads none."""
    names = [str(folder / f"read{number}") for number in range(max(READS))]
    for name in names:
        pathlib.Path(name).write_bytes(b"x" * FILE_BYTES)
    without = page_faults(program, [])
    for number in READS:
        taken = page_faults(program, names[:number]) - without
        print(f"{number} files of {FILE_BYTES >> 20} MiB, one after the other: {taken} page faults")


def measure_all(workshop: measure.Workshop, folder: pathlib.Path, size: int) -> bool:
    cpus = [GATE_CPU, "x86-64-v3"] if runs_v3() else [GATE_CPU]
    probes = {cpu: Probe(workshop.build("action_probe", "--cpu", cpu)) for cpu in cpus}
    file = folder / "small"
    good = True
    large = {"text": text_of(size), "random": random.Random(3).randbytes(size)}
    for what, data in large.items():
        (folder / what).write_bytes(data)
    for probe in probes.values():
        for data in small_files():
            file.write_bytes(data)
            good = compare(probe, file, f"{len(data)} bytes") and good
        for what in large:
            good = compare(probe, folder / what, what) and good
    print("answers as the tools give them" if good else "answers differ")
    for cpu, probe in probes.items():
        for what in large:
            good = measure_actions(probe, folder / what, what, cpu) and good
    measure_names(workshop.build("name_probe", "--cpu", GATE_CPU), file)
    measure_faults(workshop.build("read_probe", "--cpu", GATE_CPU), folder)
    return good


def main() -> None:
    measure.skip_without("valgrind", "time", "rt")
    size = (int(sys.argv[1]) if len(sys.argv) > 1 else 64) << 20
    with tempfile.TemporaryDirectory() as name:
        folder = pathlib.Path(name)
        workshop = measure.Workshop(folder, BELOW)
        workshop.add("action_probe", "item_actions", "anyhow")
        workshop.add("name_probe", "item_actions", "anyhow")
        workshop.add("read_probe", *BELOW, "anyhow")
        good = measure_all(workshop, folder, size)
    sys.exit(0 if good else 1)


if __name__ == "__main__":
    main()
