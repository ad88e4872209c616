//! Runs a plan as `leases run` does, in plain Rust over std alone: one Mutex over the whole state, and a Condvar for each thread.
//! What bench/peer.py sets `leases` beside.
//!
//!     plain_peer run PLAN --threads N --max-workers M [--parallel] [--summary] [--history] [--clock]
//!
//! It makes the entries that `leases` makes, each as a change of the state under the Mutex, and keeps their history. A decision is made
//! in the hold of the Mutex that carries it out. It prints what `leases` prints, and its history is one that `leases check` finds lawful.
//! With `--clock` it also says on standard error how much processor time all took behind the reading of the plan, and how much
//! by the clock.
//!
//! It reads plans that `leases` accepts, by a small reader of its own of the part of TOML that the plans of the benches use, since
//! it stands on no crate. It knows neither worker processes, nor tasks of all projects, nor `count` and `sha256`.

mod book;
mod plan;
mod rows;
mod run;
mod text;
mod toml;

use std::io::{BufWriter, Write};
use std::process::ExitCode;
use std::time::Instant;
use std::{env, fs, io};

/// How a plan is run, and what is printed.
struct Words {
    plan: String,
    threads: usize,
    most: usize,
    parallel: bool,
    summary: bool,
    history: bool,
    clock: bool,
}

fn number(word: Option<String>) -> usize {
    match word.and_then(|word| word.parse().ok()) {
        Some(number @ 1..=32) => number,
        _ => panic!("a number from 1 to 32"),
    }
}

fn words() -> Words {
    let mut given = env::args().skip(1);
    assert_eq!(given.next().as_deref(), Some("run"), "the first word is `run`");
    let plan = given.next().expect("a plan's name");
    let mut words = Words { plan, threads: 0, most: 2, parallel: false, summary: false, history: false, clock: false };
    while let Some(word) = given.next() {
        match word.as_str() {
            "--threads" => words.threads = number(given.next()),
            "--max-workers" => words.most = number(given.next()),
            "--parallel" => words.parallel = true,
            "--summary" => words.summary = true,
            "--history" => words.history = true,
            "--clock" => words.clock = true,
            other => panic!("no option: {other}"),
        }
    }
    words.threads = if words.threads == 0 { words.most } else { words.threads };
    words
}

#[repr(C)]
struct Timespec {
    seconds: i64,
    nanoseconds: i64,
}

extern "C" {
    fn clock_gettime(clock: i32, time: *mut Timespec) -> i32;
}

const CLOCK_PROCESS_CPUTIME_ID: i32 = 2;

/// The nanoseconds of processors that the process has taken.
fn processor_time() -> i64 {
    let mut time = Timespec { seconds: 0, nanoseconds: 0 };
    // SAFETY: the place is one for a timespec of this machine, and is written to during the call alone.
    assert_eq!(unsafe { clock_gettime(CLOCK_PROCESS_CPUTIME_ID, &mut time) }, 0);
    time.seconds * 1_000_000_000 + time.nanoseconds
}

fn main() -> ExitCode {
    let words = words();
    let text = fs::read_to_string(&words.plan).expect("a plan's file");
    let plan = match toml::read(&text).and_then(|table| plan::from(&table, words.parallel)) {
        Ok(plan) => plan,
        Err(cause) => {
            eprintln!("bad plan: {cause}");
            return ExitCode::from(3);
        }
    };
    let (start, clock) = (processor_time(), Instant::now());
    let book = run::run(&plan, words.threads, words.most);
    let mut out = BufWriter::new(io::stdout().lock());
    text::results(&plan, &book, words.summary, &mut out).expect("results are written");
    if words.history {
        let head = format!("workers {} max {} parallel {}", words.threads, words.most, if words.parallel { "yes" } else { "no" });
        text::history(&plan, &book, &head, &mut out).expect("a history is written");
    }
    out.flush().expect("all is written");
    let passed = book.all_passed();
    drop(book);
    drop(plan);
    if words.clock {
        eprintln!("nanoseconds {} {}", processor_time() - start, clock.elapsed().as_nanos());
    }
    ExitCode::from(u8::from(!passed))
}
