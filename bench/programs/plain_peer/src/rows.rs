//! What both peers read of a plan: tables by their names, and actions with what they wait with.

use crate::toml::{get, Table, Value};
use std::collections::HashMap;
use std::ops::Range;

/// What becomes of a task's lock while the items of an action run.
#[derive(Clone, Copy, PartialEq, Eq)]
pub enum Wait {
    Retain,
    Release,
    ReleaseAndReacquire,
}

/// An action. Where it has a fetch, that is its first unit.
pub struct Action {
    pub task: u32,
    pub wait: Wait,
    pub fetch: bool,
    pub units: Range<u32>,
}

impl Action {
    pub fn items(&self) -> Range<u32> {
        self.units.start + u32::from(self.fetch)..self.units.end
    }
}

pub type Read<T> = Result<T, String>;

pub fn list<'t>(table: &'t Table, key: &str) -> Read<&'t [Value]> {
    match get(table, key) {
        None => Ok(&[]),
        Some(Value::List(list)) => Ok(list),
        Some(_) => Err(format!("{key} is no list")),
    }
}

pub fn tables<'t>(table: &'t Table, key: &str) -> Read<Vec<&'t Table>> {
    let member = |value: &'t Value| match value {
        Value::Table(table) => Ok(table),
        _ => Err(format!("{key} has what is no table")),
    };
    list(table, key)?.iter().map(member).collect()
}

pub fn text(value: &Value) -> Read<&str> {
    match value {
        Value::Text(text) => Ok(text),
        _ => Err("no text".to_string()),
    }
}

pub fn need<'t>(table: &'t Table, key: &str) -> Read<&'t str> {
    get(table, key).ok_or_else(|| format!("no {key}")).and_then(text)
}

/// The number that each name has in its list.
pub fn numbers<'t>(list: &[&'t Table]) -> Read<HashMap<&'t str, u32>> {
    list.iter().enumerate().map(|(number, table)| Ok((need(table, "name")?, number as u32))).collect()
}

/// The tasks that a task's table names in `after`.
pub fn after(table: &Table, numbers: &HashMap<&str, u32>) -> Read<Vec<u32>> {
    let before = |name: &Value| numbers.get(text(name)?).copied().ok_or("no such task".to_string());
    list(table, "after")?.iter().map(before).collect()
}

pub fn wait(table: &Table) -> Read<Wait> {
    match get(table, "wait").map(text).transpose()? {
        Some("retain") => Ok(Wait::Retain),
        Some("release") => Ok(Wait::Release),
        Some("release_and_reacquire") | None => Ok(Wait::ReleaseAndReacquire),
        Some(other) => Err(format!("wait {other}")),
    }
}
