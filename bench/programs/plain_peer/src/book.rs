//! The state of a run and its history. Each call is made in a hold of the Mutex, and each entry is one whole change.

use crate::plan::{Plan, Wait};
use std::cmp::Reverse;
use std::collections::{BTreeSet, BinaryHeap, VecDeque};

#[derive(Clone, Copy, Debug, PartialEq, Eq)]
pub enum Mark {
    Waiting,
    Queued,
    Running,
    Passed,
    Failed,
    Skipped,
}

#[derive(Clone, Copy, PartialEq, Eq)]
pub enum What {
    Lock,
    Unlock,
    Take,
    Give,
    Park,
    Unpark,
    Enter,
    Leave,
    Task,
    Action,
    Unit,
}

/// A change of the state, in 8 bytes. Only those of tasks, actions and units have an old mark and a new one.
#[derive(Clone, Copy)]
pub struct Change {
    pub what: What,
    pub old: Mark,
    pub new: Mark,
    pub number: u32,
}

#[derive(Clone, Copy, Debug, PartialEq, Eq)]
pub enum Kind {
    Start,
    Skip,
    Submit,
    Park,
    Resume,
    Claim,
    Close,
    Block,
    Unblock,
    End,
}

/// An entry. Its changes end at a place in the row of all changes, and begin where those of the entry before end.
#[derive(Clone, Copy)]
pub struct Entry {
    pub kind: Kind,
    pub worker: u8,
    pub at: u32,
    pub end: u32,
}

#[derive(Clone, Copy, PartialEq, Eq)]
pub enum Outcome {
    Number(u64),
    Missing,
    TooLong,
    Fault,
    Skipped,
}

pub struct Book<'p> {
    plan: &'p Plan,
    most: usize,
    leases: usize,
    // A bit for each worker that has a lease.
    leased: u32,
    owned: Vec<bool>,
    pub tasks: Vec<Mark>,
    pub actions: Vec<Mark>,
    pub units: Vec<Mark>,
    pub outcomes: Vec<Outcome>,
    // Of each task, how many of those that it comes after haven't passed.
    unpassed: Vec<u32>,
    // Of each action, how many of its items haven't ended, and whether a unit of it failed.
    open: Vec<u32>,
    failed: Vec<bool>,
    ended: usize,
    queued: VecDeque<u32>,
    skippable: BTreeSet<u32>,
    // The tasks of each lock that can be started once it is free, and the first of each free lock.
    startable: Vec<BinaryHeap<Reverse<u32>>>,
    heads: BTreeSet<u32>,
    pub entries: Vec<Entry>,
    pub changes: Vec<Change>,
}

impl<'p> Book<'p> {
    pub fn new(plan: &'p Plan, most: usize) -> Self {
        let (tasks, actions, units) = (plan.tasks.len(), plan.actions.len(), plan.units.len());
        let mut book = Book {
            plan,
            most,
            leases: 0,
            leased: 0,
            owned: vec![false; plan.locks],
            tasks: vec![Mark::Waiting; tasks],
            actions: vec![Mark::Waiting; actions],
            units: vec![Mark::Waiting; units],
            outcomes: vec![Outcome::Skipped; units],
            unpassed: plan.tasks.iter().map(|task| task.after.len() as u32).collect(),
            open: plan.actions.iter().map(|action| action.items().len() as u32).collect(),
            failed: vec![false; actions],
            ended: 0,
            queued: VecDeque::new(),
            skippable: BTreeSet::new(),
            startable: vec![BinaryHeap::new(); plan.locks],
            heads: BTreeSet::new(),
            entries: Vec::with_capacity(2 * tasks + 3 * actions + 2 * units),
            changes: Vec::with_capacity(6 * tasks + 9 * actions + 5 * units),
        };
        for task in 0..tasks {
            if book.unpassed[task] == 0 {
                book.add_startable(task as u32);
            }
        }
        book
    }

    pub fn all_ended(&self) -> bool {
        self.ended == self.tasks.len()
    }

    pub fn all_passed(&self) -> bool {
        self.tasks.iter().all(|mark| *mark == Mark::Passed)
    }

    pub fn has_lease(&self, worker: usize) -> bool {
        self.leased & 1 << worker != 0
    }

    pub fn has_failed(&self, action: u32) -> bool {
        self.failed[action as usize]
    }

    fn lock_of(&self, action: u32) -> u32 {
        self.plan.tasks[self.plan.actions[action as usize].task as usize].lock
    }

    fn lease_is_free(&self) -> bool {
        self.leases < self.most
    }

    /// An item that can be claimed.
    pub fn next_item(&self) -> Option<u32> {
        if self.lease_is_free() {
            self.queued.front().copied()
        } else {
            None
        }
    }

    pub fn next_skip(&self) -> Option<u32> {
        self.skippable.first().copied()
    }

    pub fn next_start(&self) -> Option<u32> {
        if self.lease_is_free() {
            self.heads.first().copied()
        } else {
            None
        }
    }

    pub fn can_unblock(&self, unit: u32) -> bool {
        self.lease_is_free() && !self.owned[self.lock_of(self.plan.units[unit as usize].action) as usize]
    }

    pub fn can_resume(&self, action: u32) -> bool {
        self.open[action as usize] == 0
            && match self.plan.actions[action as usize].wait {
                Wait::Retain => self.lease_is_free(),
                Wait::Release => true,
                Wait::ReleaseAndReacquire => self.lease_is_free() && !self.owned[self.lock_of(action) as usize],
            }
    }

    fn add_startable(&mut self, task: u32) {
        let lock = self.plan.tasks[task as usize].lock as usize;
        let before = self.startable[lock].peek().map(|head| head.0);
        self.startable[lock].push(Reverse(task));
        if !self.owned[lock] && before.is_none_or(|before| task < before) {
            before.map(|before| self.heads.remove(&before));
            self.heads.insert(task);
        }
    }

    fn change(&mut self, what: What, number: u32) {
        self.changes.push(Change { what, old: Mark::Waiting, new: Mark::Waiting, number });
    }

    fn lock(&mut self, lock: u32) {
        assert!(!self.owned[lock as usize]);
        self.owned[lock as usize] = true;
        if let Some(head) = self.startable[lock as usize].peek() {
            self.heads.remove(&head.0);
        }
        self.change(What::Lock, lock);
    }

    fn unlock(&mut self, lock: u32) {
        self.owned[lock as usize] = false;
        if let Some(head) = self.startable[lock as usize].peek() {
            self.heads.insert(head.0);
        }
        self.change(What::Unlock, lock);
    }

    fn take(&mut self, worker: usize) {
        assert!(self.lease_is_free() && !self.has_lease(worker));
        self.leases += 1;
        self.leased |= 1 << worker;
        self.change(What::Take, 0);
    }

    fn give(&mut self, worker: usize) {
        self.leases -= 1;
        self.leased &= !(1 << worker);
        self.change(What::Give, 0);
    }

    fn mark(&mut self, what: What, number: u32, new: Mark) {
        let marks = match what {
            What::Task => &mut self.tasks,
            What::Action => &mut self.actions,
            _ => &mut self.units,
        };
        let old = std::mem::replace(&mut marks[number as usize], new);
        self.changes.push(Change { what, old, new, number });
    }

    fn enter(&mut self, worker: usize, kind: Kind, at: u32) {
        let end = self.changes.len() as u32;
        self.entries.push(Entry { kind, worker: worker as u8, at, end });
    }

    fn skip_actions(&mut self, actions: impl Iterator<Item = u32>) {
        let plan = self.plan;
        for action in actions {
            self.mark(What::Action, action, Mark::Skipped);
            for unit in plan.actions[action as usize].units.clone() {
                self.mark(What::Unit, unit, Mark::Skipped);
            }
        }
    }

    // Tells the tasks that come after an ended one.
    fn tell_dependents(&mut self, task: u32) {
        let (plan, passed) = (self.plan, self.tasks[task as usize] == Mark::Passed);
        self.ended += 1;
        for &dependent in &plan.tasks[task as usize].dependents {
            let unpassed = &mut self.unpassed[dependent as usize];
            if passed {
                *unpassed -= 1;
                if *unpassed == 0 {
                    self.add_startable(dependent);
                }
            } else if self.tasks[dependent as usize] == Mark::Waiting {
                self.skippable.insert(dependent);
            }
        }
    }

    pub fn start(&mut self, worker: usize, task: u32) {
        let lock = self.plan.tasks[task as usize].lock;
        self.lock(lock);
        self.startable[lock as usize].pop();
        self.take(worker);
        self.mark(What::Task, task, Mark::Running);
        self.enter(worker, Kind::Start, task);
    }

    pub fn skip(&mut self, worker: usize, task: u32) {
        self.skippable.remove(&task);
        self.mark(What::Task, task, Mark::Skipped);
        self.skip_actions(self.plan.tasks[task as usize].actions.clone());
        self.enter(worker, Kind::Skip, task);
        self.tell_dependents(task);
    }

    pub fn submit(&mut self, worker: usize, action: u32) {
        self.mark(What::Action, action, Mark::Queued);
        for unit in self.plan.actions[action as usize].items() {
            self.mark(What::Unit, unit, Mark::Queued);
            self.queued.push_back(unit);
        }
        self.enter(worker, Kind::Submit, action);
    }

    pub fn park(&mut self, worker: usize, action: u32) {
        self.give(worker);
        if self.plan.actions[action as usize].wait != Wait::Retain {
            let lock = self.lock_of(action);
            self.unlock(lock);
            self.change(What::Park, lock);
        }
        self.mark(What::Action, action, Mark::Running);
        self.enter(worker, Kind::Park, action);
    }

    pub fn resume(&mut self, worker: usize, action: u32) {
        let (wait, lock) = (self.plan.actions[action as usize].wait, self.lock_of(action));
        if wait != Wait::Retain {
            self.change(What::Unpark, lock);
        }
        if wait == Wait::ReleaseAndReacquire {
            self.lock(lock);
        }
        if wait != Wait::Release {
            self.take(worker);
        }
        self.mark(What::Action, action, Mark::Passed);
        self.enter(worker, Kind::Resume, action);
    }

    pub fn claim(&mut self, worker: usize) {
        let unit = self.queued.pop_front().expect("a queued item");
        self.take(worker);
        self.mark(What::Unit, unit, Mark::Running);
        self.enter(worker, Kind::Claim, unit);
    }

    // Ends a unit with what it gave.
    fn end_unit(&mut self, unit: u32, outcome: Outcome) {
        let passed = matches!(outcome, Outcome::Number(_));
        self.outcomes[unit as usize] = outcome;
        self.failed[self.plan.units[unit as usize].action as usize] |= !passed;
        self.mark(What::Unit, unit, if passed { Mark::Passed } else { Mark::Failed });
    }

    pub fn close(&mut self, worker: usize, unit: u32, outcome: Outcome) {
        self.end_unit(unit, outcome);
        self.open[self.plan.units[unit as usize].action as usize] -= 1;
        self.give(worker);
        self.enter(worker, Kind::Close, unit);
    }

    pub fn block(&mut self, worker: usize, unit: u32) {
        let lock = self.lock_of(self.plan.units[unit as usize].action);
        self.mark(What::Unit, unit, Mark::Running);
        self.give(worker);
        self.unlock(lock);
        self.change(What::Park, lock);
        self.change(What::Enter, 0);
        self.enter(worker, Kind::Block, unit);
    }

    pub fn unblock(&mut self, worker: usize, unit: u32, outcome: Outcome) {
        let lock = self.lock_of(self.plan.units[unit as usize].action);
        self.change(What::Leave, 0);
        self.change(What::Unpark, lock);
        self.lock(lock);
        self.take(worker);
        self.end_unit(unit, outcome);
        self.enter(worker, Kind::Unblock, unit);
    }

    pub fn end(&mut self, worker: usize, task: u32) {
        let (actions, lock) = (self.plan.tasks[task as usize].actions.clone(), self.plan.tasks[task as usize].lock);
        let failed = actions.clone().any(|action| self.failed[action as usize]);
        let first = actions.clone().find(|action| self.actions[*action as usize] == Mark::Waiting);
        self.skip_actions(first.unwrap_or(actions.end)..actions.end);
        self.mark(What::Task, task, if failed { Mark::Failed } else { Mark::Passed });
        if self.has_lease(worker) {
            self.unlock(lock);
            self.give(worker);
        }
        self.enter(worker, Kind::End, task);
        self.tell_dependents(task);
    }
}
