//! What a run prints: the results of its tasks and units, and its history.

use crate::book::{Book, Change, Kind, Mark, Outcome, What};
use crate::plan::{Do, Plan};
use std::io::{Result, Write};

fn mark(mark: Mark) -> &'static str {
    match mark {
        Mark::Waiting => "waiting",
        Mark::Queued => "queued",
        Mark::Running => "running",
        Mark::Passed => "passed",
        Mark::Failed => "failed",
        Mark::Skipped => "skipped",
    }
}

fn action(what: Do) -> &'static str {
    match what {
        Do::Fetch => "fetch",
        Do::Lines => "lines",
        Do::Words => "words",
        Do::Bytes => "bytes",
        Do::Longest => "longest",
    }
}

fn sums(name: &str, marks: &[Mark], out: &mut impl Write) -> Result<()> {
    let count = |wanted| marks.iter().filter(|mark| **mark == wanted).count();
    writeln!(out, "{name}: {} passed, {} failed, {} skipped", count(Mark::Passed), count(Mark::Failed), count(Mark::Skipped))
}

fn unit(plan: &Plan, book: &Book, number: u32, out: &mut impl Write) -> Result<()> {
    let unit = &plan.units[number as usize];
    write!(out, "  {} {} ", action(unit.what), unit.file)?;
    match book.outcomes[number as usize] {
        Outcome::Number(number) => writeln!(out, "{number}"),
        Outcome::Missing => writeln!(out, "not there"),
        Outcome::TooLong => writeln!(out, "too long"),
        Outcome::Fault => writeln!(out, "fault"),
        Outcome::Skipped => writeln!(out, "skipped"),
    }
}

/// The results, or of them the last three lines alone.
pub fn results(plan: &Plan, book: &Book, summary: bool, out: &mut impl Write) -> Result<()> {
    for (task, ended) in plan.tasks.iter().zip(&book.tasks).take(if summary { 0 } else { plan.tasks.len() }) {
        writeln!(out, "task {} {}", task.name, mark(*ended))?;
        for number in task.actions.clone().flat_map(|action| plan.actions[action as usize].units.clone()) {
            unit(plan, book, number, out)?;
        }
    }
    sums("tasks", &book.tasks, out)?;
    sums("units", &book.units, out)?;
    let total: u64 = book.outcomes.iter().map(|outcome| if let Outcome::Number(number) = outcome { *number } else { 0 }).sum();
    writeln!(out, "total: {total}")
}

fn change(change: Change, out: &mut impl Write) -> Result<()> {
    let (number, old, new) = (change.number, mark(change.old), mark(change.new));
    match change.what {
        What::Lock => write!(out, "lock {number}"),
        What::Unlock => write!(out, "unlock {number}"),
        What::Take => write!(out, "take"),
        What::Give => write!(out, "give"),
        What::Park => write!(out, "park {number}"),
        What::Unpark => write!(out, "unpark {number}"),
        What::Enter => write!(out, "enter"),
        What::Leave => write!(out, "leave"),
        What::Task => write!(out, "task {number} {old} {new}"),
        What::Action => write!(out, "action {number} {old} {new}"),
        What::Unit => write!(out, "unit {number} {old} {new}"),
    }
}

fn outcome(outcome: Outcome, out: &mut impl Write) -> Result<()> {
    match outcome {
        Outcome::Number(number) => write!(out, " number {number}"),
        Outcome::Missing => write!(out, " missing"),
        Outcome::TooLong => write!(out, " too-long"),
        Outcome::Fault | Outcome::Skipped => write!(out, " fault"),
    }
}

/// The history, behind the words of its head. The all-projects lock is one of its locks.
pub fn history(plan: &Plan, book: &Book, head: &str, out: &mut impl Write) -> Result<()> {
    writeln!(out, "history 2\n{head} locks {}", plan.locks + 1)?;
    let mut first = 0;
    for (number, entry) in book.entries.iter().enumerate() {
        write!(out, "{} w{} {} {}", number + 1, entry.worker, format!("{:?}", entry.kind).to_lowercase(), entry.at)?;
        if matches!(entry.kind, Kind::Close | Kind::Unblock) {
            outcome(book.outcomes[entry.at as usize], out)?;
        }
        let changes = &book.changes[first as usize..entry.end as usize];
        for (place, made) in changes.iter().enumerate() {
            write!(out, "{}", if place == 0 { " | " } else { ", " })?;
            change(*made, out)?;
        }
        writeln!(out)?;
        first = entry.end;
    }
    writeln!(out, "end {}", book.entries.len())
}
