//! A plan: its tasks, actions and units, each numbered through all tasks.

use crate::rows::{after, need, numbers, tables, text, wait, Read};
use crate::toml::{get, Table};
use std::ops::Range;

pub use crate::rows::{Action, Wait};

/// What is asked of a file.
#[derive(Clone, Copy, PartialEq, Eq)]
pub enum Do {
    Fetch,
    Lines,
    Words,
    Bytes,
    Longest,
}

pub struct Unit {
    pub action: u32,
    pub what: Do,
    pub file: String,
}

pub struct Task {
    pub name: String,
    pub lock: u32,
    pub after: Vec<u32>,
    /// The tasks that come after it.
    pub dependents: Vec<u32>,
    pub actions: Range<u32>,
}

#[derive(Default)]
pub struct Plan {
    pub locks: usize,
    pub tasks: Vec<Task>,
    pub actions: Vec<Action>,
    pub units: Vec<Unit>,
}

fn only(table: &Table, keys: &[&str]) -> Read<()> {
    match table.iter().find(|(key, _)| !keys.contains(&key.as_str())) {
        None => Ok(()),
        Some((key, _)) => Err(format!("key {key}")),
    }
}

impl Plan {
    fn add_item(&mut self, action: u32, table: &Table) -> Read<()> {
        only(table, &["do", "file"])?;
        let what = match need(table, "do")? {
            "lines" => Do::Lines,
            "words" => Do::Words,
            "bytes" => Do::Bytes,
            "longest" => Do::Longest,
            other => return Err(format!("do {other}")),
        };
        self.units.push(Unit { action, what, file: need(table, "file")?.to_string() });
        Ok(())
    }

    fn add_action(&mut self, task: u32, table: &Table) -> Read<()> {
        only(table, &["wait", "fetch", "item"])?;
        let (action, first) = (self.actions.len() as u32, self.units.len() as u32);
        let fetch = get(table, "fetch").map(text).transpose()?;
        if let Some(file) = fetch {
            self.units.push(Unit { action, what: Do::Fetch, file: file.to_string() });
        }
        for item in tables(table, "item")? {
            self.add_item(action, item)?;
        }
        let units = first..self.units.len() as u32;
        self.actions.push(Action { task, wait: wait(table)?, fetch: fetch.is_some(), units });
        Ok(())
    }

    fn add_dependents(&mut self) {
        for task in 0..self.tasks.len() {
            for place in 0..self.tasks[task].after.len() {
                let before = self.tasks[task].after[place];
                self.tasks[before as usize].dependents.push(task as u32);
            }
        }
    }
}

/// The plan of a document. Where it isn't parallel, all tasks share one lock.
pub fn from(root: &Table, parallel: bool) -> Read<Plan> {
    only(root, &["project", "task"])?;
    let (projects, tasks) = (tables(root, "project")?, tables(root, "task")?);
    let (projects_by_name, tasks_by_name) = (numbers(&projects)?, numbers(&tasks)?);
    let mut plan = Plan { locks: if parallel { projects.len() } else { projects.len().min(1) }, ..Plan::default() };
    for (number, table) in tasks.into_iter().enumerate() {
        only(table, &["name", "project", "after", "action"])?;
        let project = *projects_by_name.get(need(table, "project")?).ok_or("no such project")?;
        let (after, first) = (after(table, &tasks_by_name)?, plan.actions.len() as u32);
        for action in tables(table, "action")? {
            plan.add_action(number as u32, action)?;
        }
        let (name, lock) = (need(table, "name")?.to_string(), if parallel { project } else { 0 });
        plan.tasks.push(Task { name, lock, after, dependents: Vec::new(), actions: first..plan.actions.len() as u32 });
    }
    plan.add_dependents();
    Ok(plan)
}
