#!/usr/bin/env python3
"""Runs actions on 64 files of 4 MiB, beside a plain Rust program that does the same.

The files are text of common words. Each action is run on 1, 4 and 32 threads. Of each the least processor time and the
peak memory of several runs are printed, beside those of a program in plain Rust, which this script builds. Both look at
a file in pieces of 128 KiB as they read it. What the two count has to be the same. How much faster four threads are than one
by the clock is printed of both. Not part of the gate. Skips, with status 0, where rustc or GNU time is missing; ends with
status 1 where a count differs or a goal is missed.

    bench/file_pieces.py [PROGRAM [ROUNDS]]

Measured: `lines` over 256 MiB takes 0.05 s of a processor and 2.5 MB alone, 5.4 MB at 32 threads; plain Rust 0.15 s. `words` 0.05 to 0.08 s
and 6.2 MB, plain Rust 0.25 to 0.28. By the clock four threads are 2.20 (`lines`) and 3.22 (`words`) times as fast as one, those of plain
Rust 2.64 and 3.34 times. A file of 4 MiB takes 33 reads, one below 1,024 bytes four system calls.
"""

import pathlib
import subprocess
import sys
import tempfile
import time

import item_actions
import measure

FILES = 64
FILE_BYTES = 4 << 20
ACTIONS = ["lines", "words"]
THREADS = [1, 4, 32]

# The most processor time, as a multiple of the other's, at 1 and 4 threads; the most memory at 32 threads, in kilobytes; and the least that four
# threads are faster than one by the clock, as a multiple of what the other's are.
MOST_TIMES = 1.1
MOST_KILOBYTES = 16_000
LEAST_FASTER = 0.9

PEER = """
use std::io::Read;
use std::sync::atomic::{AtomicUsize, Ordering};

fn main() {
    let words: Vec<String> = std::env::args().collect();
    let (next, total) = (AtomicUsize::new(0), AtomicUsize::new(0));
    std::thread::scope(|scope| {
        for _ in 0..words[2].parse::<usize>().unwrap() {
            scope.spawn(|| {
                let mut room = vec![0u8; 131072];
                while let Some(name) = words[3..].get(next.fetch_add(1, Ordering::Relaxed)) {
                    let mut file = std::fs::File::open(name).unwrap();
                    let (mut found, mut after_space) = (0, true);
                    loop {
                        let count = file.read(&mut room).unwrap();
                        let piece = &room[..count];
                        if piece.is_empty() {
                            break;
                        }
                        if words[1] == "lines" {
                            found += piece.iter().filter(|byte| **byte == 10).count();
                            continue;
                        }
                        for byte in piece {
                            let space = matches!(*byte, 9..=13 | 32);
                            found += (after_space && !space) as usize;
                            after_space = space;
                        }
                    }
                    total.fetch_add(found, Ordering::Relaxed);
                }
            });
        }
    });
    println!("{}", total.load(Ordering::Relaxed));
}
"""


def build_peer(folder: pathlib.Path) -> str:
    source, built = folder / "peer.rs", folder / "peer"
    source.write_text(PEER)
    subprocess.run(["rustc", "-O", "-C", "target-cpu=x86-64-v2", "-o", built, source], check=True)
    return str(built)


def plan_text(action: str) -> str:
    projects = ", ".join(f'{{ name = "p{number}" }}' for number in range(FILES))
    tasks = [
        f'{{ name = "t{number}", project = "p{number}",'
        f' action = [{{ item = [{{ do = "{action}", file = "f{number}.txt" }}] }}] }}'
        for number in range(FILES)
    ]
    return f"project = [{projects}]\ntask = [\n" + ",\n".join(tasks) + "\n]\n"


def count_of(words: list[str], folder: pathlib.Path) -> str:
    """The last word that the program prints."""
    return subprocess.run(words, cwd=folder, capture_output=True, text=True, check=True).stdout.split()[-1]


def least(words: list[str], folder: pathlib.Path, rounds: int) -> tuple[float, int]:
    """The least seconds of a processor, and the most kilobytes."""
    used = [measure.usage_of(words, folder) for _ in range(rounds)]
    return min(usage.seconds for usage in used), max(usage.kilobytes for usage in used)


def both_words(action: str, threads: int, program: str, peer: str) -> tuple[list[str], list[str]]:
    ours = [program, "run", f"{action}.toml", "--summary", "--parallel", f"--threads={threads}", f"--max-workers={threads}"]
    return ours, [peer, action, str(threads), *(f"f{number}.txt" for number in range(FILES))]


def clock_of(words: list[str], folder: pathlib.Path) -> float:
    start = time.monotonic()
    subprocess.run(words, cwd=folder, capture_output=True, check=True)
    return time.monotonic() - start


def compare_clocks(action: str, program: str, peer: str, folder: pathlib.Path, rounds: int) -> bool:
    """Whether four threads are as much faster than one as the other's are. All four kinds of run take turns."""
    kinds = [words for threads in (1, 4) for words in both_words(action, threads, program, peer)]
    one, other_one, four, other_four = map(min, zip(*([clock_of(words, folder) for words in kinds] for _ in range(rounds))))
    ours, others = one / four, other_one / other_four
    print(
        f"{action}, by the clock: {one * 1000:.0f} ms on one thread and {four * 1000:.0f} ms on four, {ours:.2f} times as fast;"
        f" the other {other_one * 1000:.0f} and {other_four * 1000:.0f} ms, {others:.2f} times"
    )
    return ours >= LEAST_FASTER * others


def compare(action: str, threads: int, program: str, peer: str, folder: pathlib.Path, rounds: int) -> bool:
    ours, others = both_words(action, threads, program, peer)
    if count_of(ours, folder) != count_of(others, folder):
        print(f"{action} at {threads} threads: not what the other counts")
        return False
    seconds, kilobytes = least(ours, folder, rounds)
    other_seconds, other_kilobytes = least(others, folder, rounds)
    print(
        f"{action}, {threads} threads: {seconds:.2f} s of processors and {kilobytes} KB;"
        f" the other {other_seconds:.2f} s and {other_kilobytes} KB"
    )
    # The clock of these times counts hundredths of a second.
    slow = threads <= 4 and seconds > MOST_TIMES * other_seconds + 0.01
    return not slow and (threads < 32 or kilobytes <= MOST_KILOBYTES)


def main() -> None:
    measure.skip_without("rustc", "time")
    program = measure.leases_program()
    rounds = int(sys.argv[2]) if len(sys.argv) > 2 else 7
    with tempfile.TemporaryDirectory() as name:
        folder = pathlib.Path(name)
        peer = build_peer(folder)
        text = item_actions.text_of(FILE_BYTES)
        for number in range(FILES):
            (folder / f"f{number}.txt").write_bytes(text[997 * number :] + text[: 997 * number])
        for action in ACTIONS:
            (folder / f"{action}.toml").write_text(plan_text(action))
        met = [compare(action, threads, program, peer, folder, rounds) for action in ACTIONS for threads in THREADS]
        met += [compare_clocks(action, program, peer, folder, rounds) for action in ACTIONS]
    sys.exit(0 if all(met) else 1)


if __name__ == "__main__":
    main()
