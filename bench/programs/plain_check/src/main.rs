//! Checks a history's text as `leases check` does, in plain Rust over std alone. What bench/check_peer.py sets `leases check` beside.
//!
//!     plain_check check PLAN <HISTORY
//!
//! It reads lines from standard input by `BufRead::read_until`, and so reads ahead: of what stands behind the `end` line bytes may be lost,
//! which `leases check` leaves to the next reader. Each line is read into an entry, which has to be allowed in the state that those before it
//! lead to, and to have exactly the changes that its kind makes there. Entries are forgotten. It prints what `leases check` prints, with the
//! same status: also where the text stops being a history, or names another number of locks than the plan's run has.
//!
//! It reads plans that `leases` accepts, by the small readers of TOML and of a plan's rows of plain_peer, and knows no worker processes with
//! requirements of numbers.

mod plan;
#[path = "../../plain_peer/src/rows.rs"]
mod rows;
mod state;
mod text;
#[path = "../../plain_peer/src/toml.rs"]
mod toml;

use plan::Plan;
use state::State;
use std::io::{self, BufRead, Read};
use std::process::ExitCode;
use std::{env, fs};
use text::{Line, Settings};

const MOST_BYTES: u64 = 67_108_864;
const NO_PLAN: u8 = 3;
const NOT_READ: u8 = 8;
const NOT_LAWFUL: u8 = 9;

/// So many lawful entries, or the number of the first that isn't one.
type Verdict = Result<u64, u64>;

/// The lines of the input, each in the same room.
struct Lines<I> {
    input: I,
    line: Vec<u8>,
}

impl<I: BufRead> Lines<I> {
    /// The next line with its end, or what there is in place of one.
    fn next(&mut self) -> io::Result<&[u8]> {
        self.line.clear();
        self.input.read_until(b'\n', &mut self.line)?;
        Ok(&self.line)
    }

    /// What the second line of the first history says, if there is one.
    fn head(&mut self) -> io::Result<Option<Settings>> {
        loop {
            let line = self.next()?;
            if let Some(version) = text::read_version(line) {
                return Ok(text::read_settings(self.next()?, version));
            }
            if line.last() != Some(&b'\n') {
                return Ok(None);
            }
        }
    }
}

fn check(plan: &Plan, input: impl BufRead) -> io::Result<Verdict> {
    let mut lines = Lines { input, line: Vec::new() };
    let Some(settings) = lines.head()? else { return Ok(Err(0)) };
    let mut state = State::new(plan, &settings);
    let (mut count, mut refused, mut changes) = (0, None, Vec::new());
    if settings.locks.is_some_and(|locks| locks != state.lock_count()) {
        refused = Some(0);
    }
    // Behind an entry that isn't allowed the lines still have to be those of a history.
    loop {
        match text::read_line(lines.next()?, count, &mut changes) {
            None => return Ok(Err(count + 1)),
            Some(Line::End) => return Ok(refused.map_or(Ok(count), Err)),
            Some(Line::Entry(entry)) => {
                count += 1;
                if refused.is_none() && !state.admit(&entry, &changes) {
                    refused = Some(count);
                }
            }
        }
    }
}

fn main() -> ExitCode {
    let words: Vec<String> = env::args().collect();
    assert!(words.len() == 3 && words[1] == "check", "check PLAN");
    let text = fs::read_to_string(&words[2]).expect("a plan's file");
    let plan = match toml::read(&text).and_then(|table| plan::from(&table)) {
        Ok(plan) => plan,
        Err(cause) => {
            eprintln!("bad plan: {cause}");
            return ExitCode::from(NO_PLAN);
        }
    };
    match check(&plan, io::stdin().lock().take(MOST_BYTES)) {
        Ok(Ok(count)) => {
            println!("lawful {count}");
            ExitCode::SUCCESS
        }
        Ok(Err(number)) => {
            println!("not lawful at {number}");
            ExitCode::from(NOT_LAWFUL)
        }
        Err(_) => {
            println!("input not read");
            ExitCode::from(NOT_READ)
        }
    }
}
