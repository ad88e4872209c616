//! A plan, as far as a check needs it: tasks, actions and units, each numbered through all tasks.

use crate::rows::{after, list, need, numbers, tables, wait, Read};
use crate::toml::{get, Table, Value};
use std::ops::Range;

pub use crate::rows::{Action, Wait};

pub struct Task {
    pub project: u32,
    pub all_projects: bool,
    pub after: Vec<u32>,
    pub actions: Range<u32>,
}

#[derive(Default)]
pub struct Plan {
    pub projects: u32,
    pub tasks: Vec<Task>,
    pub actions: Vec<Action>,
    /// The action of each unit.
    pub units: Vec<u32>,
}

fn flag(table: &Table, key: &str) -> Read<bool> {
    match get(table, key) {
        None => Ok(false),
        Some(Value::Flag(flag)) => Ok(*flag),
        Some(_) => Err(format!("{key} is no flag")),
    }
}

impl Plan {
    fn add_action(&mut self, task: u32, table: &Table) -> Read<()> {
        let (fetch, first) = (get(table, "fetch").is_some(), self.units.len());
        let end = first + usize::from(fetch) + list(table, "item")?.len();
        self.units.resize(end, self.actions.len() as u32);
        self.actions.push(Action { task, wait: wait(table)?, fetch, units: first as u32..end as u32 });
        Ok(())
    }
}

/// The plan of a document.
pub fn from(root: &Table) -> Read<Plan> {
    let (projects, tasks) = (tables(root, "project")?, tables(root, "task")?);
    let (projects_by_name, tasks_by_name) = (numbers(&projects)?, numbers(&tasks)?);
    let mut plan = Plan { projects: projects.len() as u32, ..Plan::default() };
    for (number, table) in tasks.into_iter().enumerate() {
        let project = *projects_by_name.get(need(table, "project")?).ok_or("no such project")?;
        let (after, first) = (after(table, &tasks_by_name)?, plan.actions.len() as u32);
        for action in tables(table, "action")? {
            plan.add_action(number as u32, action)?;
        }
        let actions = first..plan.actions.len() as u32;
        plan.tasks.push(Task { project, all_projects: flag(table, "all_projects")?, after, actions });
    }
    Ok(plan)
}
