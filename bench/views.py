#!/usr/bin/env python3
"""Counts what an entry costs that views see, and times looks beside the read of a lock in plain Rust.

Copies the crates into a temporary folder, adds two small programs, which are proved and built there as the gate builds, and runs them.
Entries: 200,000 of a plain book, and of a book with 1, 8 and 31 views that nobody looks through; and the same under the state lock of a
service that was opened for itself, or with 0, 1, 8 and 31 views; instructions by valgrind. Looks: 1,000,000 by each of 1, 8 and 31
threads, alone and while another thread makes entries; beside them as many reads of two numbers under the RwLock of Rust's std, alone and while
another thread writes them. Each thread times 1,000 looks at a time. The middle one of all those times is printed, so that threads that wait for
a processor don't count. Not part of the gate. Without valgrind or rustc that part is left out.

    bench/views.py [PROGRAM SERVICE]

PROGRAM is a built program of bench/programs/view_rounds, and SERVICE one of bench/programs/shown_rounds.

Measured: an entry with 1, 8 and 31 views takes 609, 889 and 1,809 instructions more than the 178 of a plain book (goal 250 with one), and
under the state lock of a service without views 49 more (goal 30). A look takes 17 to 18 ns by 1, 8 and 31 threads, beside a writer too; the
lock's read 20, 364 and 453 ns, beside a writer 92 to 526.
"""

import pathlib
import shutil
import statistics
import subprocess
import sys
import tempfile

import measure

LIBRARIES = measure.with_those_below("coordination")
PROGRAM = "view_rounds"
SERVICE = "shown_rounds"
ENTRIES = 200_000
VIEWS = (1, 8, 31)
TURNS = 5

# The goals: instructions that an entry takes more with one view, and in a service without views; nanoseconds of a look alone.
MOST_MORE = 250
MOST_MORE_UNSEEN = 30
MOST_ALONE = 40.0

LOCKED_READS = """
use std::sync::atomic::{AtomicBool, Ordering};
use std::sync::{Arc, RwLock};
use std::thread;
use std::time::Instant;

fn main() {
    let words: Vec<String> = std::env::args().collect();
    let readers: usize = words[1].parse().unwrap();
    let shared = Arc::new(RwLock::new((0u64, 0u32)));
    let over = Arc::new(AtomicBool::new(false));
    let writer = words.iter().any(|word| word == "enters").then(|| {
        let (shared, over) = (shared.clone(), over.clone());
        thread::spawn(move || while !over.load(Ordering::Relaxed) {
            // An entry is made in between, which takes as long as this.
            for step in 0..500u32 {
                std::hint::black_box(step);
            }
            let mut pair = shared.write().unwrap();
            *pair = (pair.0 + 1, pair.1 ^ 1);
        })
    });
    let threads: Vec<_> = (0..readers).map(|_| {
        let shared = shared.clone();
        thread::spawn(move || (0..1_000).map(|_| {
            let start = Instant::now();
            std::hint::black_box((0..1_000).fold(0u64, |sum, _| {
                let read = shared.read().unwrap();
                std::hint::black_box(sum.wrapping_add(read.0 + u64::from(read.1)))
            }));
            start.elapsed().as_nanos() as u64
        }).collect::<Vec<u64>>())
    }).collect();
    let mut all: Vec<u64> = threads.into_iter().flat_map(|reader| reader.join().unwrap()).collect();
    over.store(true, Ordering::Relaxed);
    if let Some(writer) = writer {
        writer.join().unwrap();
    }
    all.sort_unstable();
    println!("{}", all[all.len() / 2]);
}
"""


def count_entry(words: list[str], entering: str) -> float:
    """The instructions of one of the entries that the word asks for."""
    many, few = (measure.count_instructions(each)[0] for each in ([*words, entering], words))
    return (many - few) / ENTRIES


def report_entries(program: str, service: str) -> None:
    if shutil.which("valgrind") is None:
        print("entries: not counted without valgrind")
        return
    plain = count_entry([program, "0"], "enters")
    print(f"an entry of a plain book: {plain:.0f} instructions")
    for views in VIEWS:
        goal = f" (goal {MOST_MORE})" if views == 1 else ""
        print(f"with {views} view{'s' if views > 1 else ''}: {count_entry([program, str(views)], 'enters') - plain:.0f} more{goal}")
    plain = count_entry([service, "plain"], "many")
    print(f"an entry under the state lock of a service that was opened for itself: {plain:.0f} instructions")
    for views in (0, *VIEWS):
        goal = {0: f" (goal {MOST_MORE_UNSEEN})", 1: f" (goal {MOST_MORE})"}.get(views, "")
        print(f"opened with {views} view{'' if views == 1 else 's'}: {count_entry([service, str(views)], 'many') - plain:.0f} more{goal}")


def middle(words: list[str]) -> int:
    """The middle one of what the program prints in so many runs."""
    return statistics.median_low(int(subprocess.run(words, capture_output=True, text=True, check=True).stdout) for _ in range(TURNS))


def build_locked(folder: pathlib.Path) -> str | None:
    if shutil.which("rustc") is None:
        return None
    source = folder / "locked_reads.rs"
    source.write_text(LOCKED_READS)
    built = folder / "locked_reads"
    subprocess.run(["rustc", "-O", "-o", built, source], check=True, capture_output=True)
    return str(built)


def report_looks(program: str) -> None:
    with tempfile.TemporaryDirectory() as folder:
        locked = build_locked(pathlib.Path(folder))
        for readers in VIEWS:
            for entering in ([], ["enters"]):
                # The program prints picoseconds of a look, and its peer nanoseconds of a thousand reads, which is the same number.
                words = [str(readers), *entering]
                line = f"{readers} thread{'s' if readers > 1 else ''}{' beside a writer' if entering else ''}: "
                line += f"a look {middle([program, *words, 'looks']) / 1000:.1f} ns"
                if locked is not None:
                    line += f", a read under RwLock {middle([locked, *words]) / 1000:.1f} ns"
                print(line + (f" (goal {MOST_ALONE:.0f})" if readers == 1 and not entering else ""), flush=True)


def report(program: str, service: str) -> None:
    report_looks(program)
    report_entries(program, service)


def main() -> None:
    if len(sys.argv) > 2:
        report(*(str(pathlib.Path(word).resolve()) for word in sys.argv[1:3]))
        return
    measure.skip_without("rt")
    with tempfile.TemporaryDirectory() as folder:
        workshop = measure.Workshop(pathlib.Path(folder), LIBRARIES)
        for name in (PROGRAM, SERVICE):
            workshop.add(name, *LIBRARIES)
        report(workshop.build(PROGRAM), workshop.build(SERVICE))


if __name__ == "__main__":
    main()
