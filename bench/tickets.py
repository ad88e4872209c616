#!/usr/bin/env python3
"""Times a push and a pop of tickets together, beside those of crossbeam's own queue and of a VecDeque behind a Mutex.

Copies work_tickets into a temporary folder, adds a small program, which is proved and built there as the gate builds, and
runs it: each thread pushes a ticket and pops one, 100,000 times, alone and on four threads that contend. The kinds of run
take turns, and medians are printed. Not part of the gate. A machine that does other work meanwhile gives other figures.

    bench/tickets.py [--beside FOLDER] [PROGRAM]

FOLDER is that of the Rust crate crossbeam-queue, as Debian's package librust-crossbeam-queue-dev brings it: its queue in
plain Rust is built by cargo and timed too. PROGRAM is a built program of bench/programs/ticket_rounds.

Measured: a push and a pop take 36 ns at best and 38 by medians alone (goal 60), crossbeam's queue 17, a VecDeque behind a Mutex 30; with
four threads 36 and 63, crossbeam's 17 and 24 (goal 2 times). A push and a pop each end with an xchg where crossbeam stores plainly.
"""

import os
import pathlib
import shutil
import statistics
import subprocess
import sys
import tempfile

import measure

BELOW = ["work_tickets"]
PROGRAM = "ticket_rounds"
PEER = "queue_peer"
# As many rounds as a thread of the program makes in a run.
ROUNDS = 100_000
# How often each kind of run is made.
TURNS = 9
# The goals: nanoseconds of one thread alone, and how many times as long as crossbeam's own queue on four threads.
MOST_ALONE = 60.0
MOST_CONTENDED = 2.0

Words = list[str]

PEER_MANIFEST = """[package]
name = "queue_peer"
version = "0.1.0"
edition = "2021"

[dependencies]
crossbeam-queue = {{ path = "{folder}" }}

[profile.release]
lto = true
"""


def build_peer(crossbeam: pathlib.Path, folder: pathlib.Path) -> str:
    """crossbeam's own queue in plain Rust, built for the same processors as the gate builds for."""
    shutil.copytree(measure.PROGRAMS / PEER, folder, dirs_exist_ok=True)
    (folder / "Cargo.toml").write_text(PEER_MANIFEST.format(folder=crossbeam.resolve()))
    # The crates that the package stands on lie beside it.
    (folder / ".cargo").mkdir()
    (folder / ".cargo/config.toml").write_text(
        f'[source.crates-io]\nreplace-with = "beside"\n[source.beside]\ndirectory = "{crossbeam.resolve().parent}"\n'
    )
    settings = os.environ | {"RUSTFLAGS": "-C target-cpu=x86-64-v2 --cap-lints allow"}
    subprocess.run(["cargo", "build", "-q", "--release", "--offline"], cwd=folder, env=settings, check=True)
    return str(folder / "target/release" / PEER)


def run_once(words: Words, threads: str) -> float:
    """The nanoseconds of the program's last run, of which the first touches the memory."""
    ran = subprocess.run([*words, "many", threads], capture_output=True, text=True, check=True)
    return float(ran.stdout.split()[-1])


def compare(kinds: dict[str, Words], threads: str, number: int) -> None:
    turns = [[run_once(words, threads) for words in kinds.values()] for _ in range(TURNS)]
    rounds = ROUNDS * number
    for kind, times in zip(kinds, zip(*turns)):
        nanoseconds = statistics.median(times) / rounds
        print(f"{number} thread{'s' if number > 1 else ''}: a push and a pop of {kind} {nanoseconds:.1f} ns")


def report(program: str, peer: str | None) -> None:
    kinds = {"tickets": [program], "a VecDeque behind a Mutex": [program, "locked"]}
    if peer is not None:
        kinds["crossbeam's own queue"] = [peer]
    compare(kinds, "one", 1)
    compare(kinds, "four", 4)
    print(f"goals: alone at most {MOST_ALONE:.0f} ns, on four threads at most {MOST_CONTENDED:.0f} times crossbeam's own queue")


def main() -> None:
    with tempfile.TemporaryDirectory() as name:
        peer = None
        if sys.argv[1:2] == ["--beside"]:
            measure.skip_without("cargo")
            peer = build_peer(pathlib.Path(sys.argv[2]), pathlib.Path(name))
            del sys.argv[1:3]
        measure.report_on(PROGRAM, BELOW, lambda program: report(program, peer))


if __name__ == "__main__":
    main()
