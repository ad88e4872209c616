//! The state that a history leads to, and which entry is allowed in it.

use crate::plan::{Action, Plan, Task, Wait};
use crate::text::{Change, Closed, Entry, Kind, Mark, Settings};

// What a worker has, and how many marks of each sort it runs.
#[derive(Default)]
struct Worker {
    lease: bool,
    blocked: bool,
    // Rising.
    owned: Vec<u32>,
    // The last one last.
    parked: Vec<u32>,
    tasks: u32,
    actions: u32,
    units: u32,
}

impl Worker {
    fn runs_any(&self) -> bool {
        self.tasks + self.actions + self.units > 0
    }

    fn is_idle(&self) -> bool {
        !self.blocked && !self.lease && self.owned.is_empty() && !self.runs_any()
    }
}

pub struct State<'p> {
    plan: &'p Plan,
    // The lock of each task. That of all projects is the last one.
    locks: Vec<u32>,
    all_lock: u32,
    most: u32,
    leases: u32,
    owners: Vec<Option<u32>>,
    owned: usize,
    workers: Vec<Worker>,
    tasks: Vec<Mark>,
    actions: Vec<Mark>,
    units: Vec<Mark>,
}

// The changes that an entry has, each of which is made as it is asked for.
struct Making<'m, 'p> {
    state: &'m mut State<'p>,
    worker: u32,
    left: std::slice::Iter<'m, Change>,
}

fn end_mark(passed: bool) -> Mark {
    if passed {
        Mark::Passed
    } else {
        Mark::Failed
    }
}

// Moves a mark, and counts how many the worker runs.
fn move_mark(marks: &mut [Mark], running: &mut u32, number: u32, old: Mark, new: Mark) -> bool {
    let mark = &mut marks[number as usize];
    if *mark != old || old == new {
        return false;
    }
    *mark = new;
    *running -= u32::from(matches!(old, Mark::Running(_)));
    *running += u32::from(matches!(new, Mark::Running(_)));
    true
}

impl<'p> State<'p> {
    pub fn new(plan: &'p Plan, settings: &Settings) -> Self {
        let all_lock = if settings.parallel { plan.projects } else { plan.projects.min(1) };
        let lock = |task: &Task| match task.all_projects {
            true => all_lock,
            false if settings.parallel => task.project,
            false => 0,
        };
        State {
            plan,
            locks: plan.tasks.iter().map(lock).collect(),
            all_lock,
            most: settings.most,
            leases: 0,
            owners: vec![None; all_lock as usize + 1],
            owned: 0,
            workers: (0..settings.workers).map(|_| Worker::default()).collect(),
            tasks: vec![Mark::Waiting; plan.tasks.len()],
            actions: vec![Mark::Waiting; plan.actions.len()],
            units: vec![Mark::Waiting; plan.units.len()],
        }
    }

    pub fn lock_count(&self) -> u32 {
        self.all_lock + 1
    }

    fn action(&self, action: u32) -> &'p Action {
        &self.plan.actions[action as usize]
    }

    fn lock_of(&self, action: u32) -> u32 {
        self.locks[self.action(action).task as usize]
    }

    fn unit(&self, unit: u32) -> Mark {
        self.units[unit as usize]
    }

    // Whether nobody owns the lock, no other worker has one that conflicts with it, and this one hasn't parked it.
    fn can_lock(&self, number: u32, lock: u32) -> bool {
        let worker = &self.workers[number as usize];
        self.owners[lock as usize].is_none()
            && self.owners[self.all_lock as usize].is_none_or(|owner| owner == number)
            && (lock != self.all_lock || self.owned == worker.owned.len())
            && !worker.parked.contains(&lock)
    }

    // Makes a change, whose numbers are in range, where it can be made.
    fn make(&mut self, number: u32, change: Change) -> bool {
        let worker = &self.workers[number as usize];
        let can = match change {
            Change::Lock(lock) => self.can_lock(number, lock),
            Change::Unlock(lock) => self.owners[lock as usize] == Some(number),
            Change::Take => !worker.lease && !worker.blocked && self.leases < self.most,
            Change::Give => worker.lease,
            Change::Park(lock) => self.owners[lock as usize] != Some(number) && !worker.parked.contains(&lock),
            Change::Unpark(lock) => worker.parked.last() == Some(&lock),
            Change::Enter => !worker.blocked && !worker.lease,
            Change::Leave => worker.blocked,
            Change::Task(..) | Change::Action(..) | Change::Unit(..) => true,
        };
        can && self.change(number, change)
    }

    fn change(&mut self, number: u32, change: Change) -> bool {
        let worker = &mut self.workers[number as usize];
        match change {
            Change::Lock(lock) => {
                let place = worker.owned.partition_point(|other| *other < lock);
                worker.owned.insert(place, lock);
                self.owners[lock as usize] = Some(number);
                self.owned += 1;
            }
            Change::Unlock(lock) => {
                worker.owned.retain(|other| *other != lock);
                self.owners[lock as usize] = None;
                self.owned -= 1;
            }
            Change::Take => {
                worker.lease = true;
                self.leases += 1;
            }
            Change::Give => {
                worker.lease = false;
                self.leases -= 1;
            }
            Change::Park(lock) => worker.parked.push(lock),
            Change::Unpark(_) => drop(worker.parked.pop()),
            Change::Enter => worker.blocked = true,
            Change::Leave => worker.blocked = false,
            Change::Task(task, old, new) => return move_mark(&mut self.tasks, &mut worker.tasks, task, old, new),
            Change::Action(action, old, new) => return move_mark(&mut self.actions, &mut worker.actions, action, old, new),
            Change::Unit(unit, old, new) => return move_mark(&mut self.units, &mut worker.units, unit, old, new),
        }
        true
    }

    // Whether the worker runs the task and works on it now.
    fn works_on(&self, number: u32, task: u32) -> bool {
        let worker = &self.workers[number as usize];
        self.tasks[task as usize] == Mark::Running(number) && worker.lease && worker.actions == 0
    }

    fn units_passed(&self, action: u32) -> bool {
        self.action(action).units.clone().all(|unit| self.unit(unit) == Mark::Passed)
    }

    fn earlier(&self, action: u32) -> std::ops::Range<u32> {
        self.plan.tasks[self.action(action).task as usize].actions.start..action
    }

    fn earlier_passed(&self, action: u32) -> bool {
        self.earlier(action).all(|before| self.actions[before as usize] == Mark::Passed && self.units_passed(before))
    }

    fn fetch_is_closed(&self, action: u32) -> bool {
        let found = self.action(action);
        !found.fetch || matches!(self.unit(found.units.start), Mark::Passed | Mark::Failed)
    }

    fn never_ran(&self, action: u32) -> bool {
        let units = |action: u32| self.action(action).units.clone();
        self.actions[action as usize] == Mark::Waiting
            && units(action).all(|unit| self.unit(unit) == Mark::Waiting)
            && self.earlier(action).any(|before| units(before).any(|unit| self.unit(unit) == Mark::Failed))
    }

    fn is_item(&self, unit: u32) -> bool {
        let action = self.action(self.plan.units[unit as usize]);
        action.items().contains(&unit)
    }

    fn in_range(&self, kind: Kind) -> bool {
        let (number, marks) = match kind {
            Kind::Start(task) | Kind::Skip(task) | Kind::End(task) => (task, &self.tasks),
            Kind::Submit(action) | Kind::Park(action) | Kind::Resume(action) => (action, &self.actions),
            Kind::Claim(unit) | Kind::Block(Some(unit)) => (unit, &self.units),
            Kind::Close(closed) | Kind::Unblock(Some(closed)) => (closed.unit, &self.units),
            Kind::Block(None) | Kind::Unblock(None) | Kind::Acquire | Kind::HandBack => return true,
        };
        (number as usize) < marks.len()
    }

    // Whether an entry of this kind, whose numbers are in range, can stand here, but for its changes.
    fn allows(&self, number: u32, kind: Kind) -> bool {
        let worker = &self.workers[number as usize];
        let before = |task: u32| self.plan.tasks[task as usize].after.iter().map(|other| self.tasks[*other as usize]);
        match kind {
            Kind::Start(task) => {
                self.tasks[task as usize] == Mark::Waiting && worker.is_idle() && before(task).all(|mark| mark == Mark::Passed)
            }
            Kind::Skip(task) => {
                let fell = before(task).any(|mark| matches!(mark, Mark::Failed | Mark::Skipped));
                self.tasks[task as usize] == Mark::Waiting && worker.is_idle() && fell
            }
            Kind::Submit(action) => {
                self.works_on(number, self.action(action).task)
                    && self.actions[action as usize] == Mark::Waiting
                    && self.earlier_passed(action)
                    && self.fetch_is_closed(action)
            }
            Kind::Park(action) => self.works_on(number, self.action(action).task) && self.actions[action as usize] == Mark::Queued,
            Kind::Resume(action) => {
                let ended = |unit| matches!(self.unit(unit), Mark::Passed | Mark::Failed | Mark::Skipped);
                self.actions[action as usize] == Mark::Running(number)
                    && !worker.lease
                    && worker.units == 0
                    && self.action(action).items().all(ended)
            }
            Kind::Claim(unit) => {
                self.is_item(unit)
                    && self.unit(unit) == Mark::Queued
                    && !worker.lease
                    && !worker.blocked
                    && worker.units == 0
                    && (worker.actions > 0 || worker.is_idle())
            }
            Kind::Close(closed) => self.is_item(closed.unit) && self.unit(closed.unit) == Mark::Running(number),
            Kind::Block(None) => worker.lease && worker.units == 0,
            Kind::Block(Some(unit)) => {
                let action = self.plan.units[unit as usize];
                !self.is_item(unit)
                    && self.works_on(number, self.action(action).task)
                    && self.actions[action as usize] == Mark::Waiting
                    && self.unit(unit) == Mark::Waiting
                    && self.earlier_passed(action)
            }
            Kind::Unblock(None) => worker.blocked && worker.units == 0,
            Kind::Unblock(Some(closed)) => worker.blocked && self.unit(closed.unit) == Mark::Running(number),
            Kind::End(task) => {
                let done = |action| self.actions[action as usize] == Mark::Passed || self.never_ran(action);
                self.tasks[task as usize] == Mark::Running(number)
                    && worker.actions == 0
                    && worker.units == 0
                    && !worker.blocked
                    && self.plan.tasks[task as usize].actions.clone().all(done)
            }
            Kind::Acquire => !worker.blocked && !worker.runs_any(),
            Kind::HandBack => !worker.blocked && !worker.runs_any() && (worker.lease || !worker.owned.is_empty()),
        }
    }

    /// Makes the changes of an entry where it is allowed here with exactly them. Where it isn't, the state is worth nothing any more.
    pub fn admit(&mut self, entry: &Entry, changes: &[Change]) -> bool {
        if entry.worker as usize >= self.workers.len() || !self.in_range(entry.kind) {
            return false;
        }
        if !entry.finished {
            return true;
        }
        if !self.allows(entry.worker, entry.kind) {
            return false;
        }
        let mut making = Making { state: self, worker: entry.worker, left: changes.iter() };
        making.entry(entry.kind).is_some() && making.left.next().is_none()
    }
}

impl Making<'_, '_> {
    fn mine(&self) -> &Worker {
        &self.state.workers[self.worker as usize]
    }

    // The entry's next change has to be this one.
    fn make(&mut self, change: Change) -> Option<()> {
        (self.left.next() == Some(&change) && self.state.make(self.worker, change)).then_some(())
    }

    fn skip_action(&mut self, action: u32) -> Option<()> {
        self.make(Change::Action(action, Mark::Waiting, Mark::Skipped))?;
        let mut units = self.state.action(action).units.clone();
        units.try_for_each(|unit| self.make(Change::Unit(unit, Mark::Waiting, Mark::Skipped)))
    }

    fn close(&mut self, closed: Closed) -> Option<()> {
        self.make(Change::Unit(closed.unit, Mark::Running(self.worker), end_mark(closed.passed)))
    }

    fn give_if_leased(&mut self) -> Option<()> {
        if self.mine().lease {
            self.make(Change::Give)?;
        }
        Some(())
    }

    fn set_down(&mut self) -> Option<()> {
        self.make(Change::Give)?;
        while let Some(&lock) = self.mine().owned.first() {
            self.make(Change::Unlock(lock))?;
            self.make(Change::Park(lock))?;
        }
        self.make(Change::Enter)
    }

    fn take_up(&mut self) -> Option<()> {
        self.make(Change::Leave)?;
        while let Some(&lock) = self.mine().parked.last() {
            self.make(Change::Unpark(lock))?;
            self.make(Change::Lock(lock))?;
        }
        self.make(Change::Take)
    }

    fn park(&mut self, action: u32) -> Option<()> {
        self.make(Change::Give)?;
        if self.state.action(action).wait != Wait::Retain {
            let lock = self.state.lock_of(action);
            self.make(Change::Unlock(lock))?;
            self.make(Change::Park(lock))?;
        }
        self.make(Change::Action(action, Mark::Queued, Mark::Running(self.worker)))
    }

    fn resume(&mut self, action: u32) -> Option<()> {
        let (wait, lock) = (self.state.action(action).wait, self.state.lock_of(action));
        if wait != Wait::Retain {
            self.make(Change::Unpark(lock))?;
        }
        if wait == Wait::ReleaseAndReacquire {
            self.make(Change::Lock(lock))?;
        }
        if wait != Wait::Release {
            self.make(Change::Take)?;
        }
        self.make(Change::Action(action, Mark::Running(self.worker), Mark::Passed))
    }

    fn end(&mut self, task: u32) -> Option<()> {
        let actions = self.state.plan.tasks[task as usize].actions.clone();
        let passed = actions.clone().all(|action| self.state.units_passed(action));
        for action in actions {
            if self.state.actions[action as usize] == Mark::Waiting {
                self.skip_action(action)?;
            }
        }
        self.make(Change::Task(task, Mark::Running(self.worker), end_mark(passed)))?;
        if self.mine().lease {
            self.make(Change::Unlock(self.state.locks[task as usize]))?;
            self.make(Change::Give)?;
        }
        Some(())
    }

    // Locks in rising order, and then a lease where there was none.
    fn acquire(&mut self) -> Option<()> {
        let mut least = 0;
        while let Some(&Change::Lock(lock)) = self.left.as_slice().first() {
            if lock < least || lock > self.state.all_lock {
                return None;
            }
            self.make(Change::Lock(lock))?;
            least = lock + 1;
        }
        if !self.mine().lease {
            self.make(Change::Take)?;
        }
        Some(())
    }

    fn hand_back(&mut self) -> Option<()> {
        while let Some(&lock) = self.mine().owned.first() {
            self.make(Change::Unlock(lock))?;
        }
        self.give_if_leased()
    }

    // Makes the changes that the kind and the state fix.
    fn entry(&mut self, kind: Kind) -> Option<()> {
        let running = Mark::Running(self.worker);
        match kind {
            Kind::Start(task) => {
                self.make(Change::Lock(self.state.locks[task as usize]))?;
                self.make(Change::Take)?;
                self.make(Change::Task(task, Mark::Waiting, running))
            }
            Kind::Skip(task) => {
                self.make(Change::Task(task, Mark::Waiting, Mark::Skipped))?;
                let mut actions = self.state.plan.tasks[task as usize].actions.clone();
                actions.try_for_each(|action| self.skip_action(action))
            }
            Kind::Submit(action) => {
                self.make(Change::Action(action, Mark::Waiting, Mark::Queued))?;
                let mut items = self.state.action(action).items();
                items.try_for_each(|unit| self.make(Change::Unit(unit, Mark::Waiting, Mark::Queued)))
            }
            Kind::Park(action) => self.park(action),
            Kind::Resume(action) => self.resume(action),
            Kind::Claim(unit) => {
                self.make(Change::Take)?;
                self.make(Change::Unit(unit, Mark::Queued, running))
            }
            Kind::Close(closed) => {
                self.close(closed)?;
                self.make(Change::Give)
            }
            Kind::Block(Some(unit)) => {
                self.make(Change::Unit(unit, Mark::Waiting, running))?;
                self.set_down()
            }
            Kind::Block(None) => self.set_down(),
            Kind::Unblock(Some(closed)) => {
                self.take_up()?;
                self.close(closed)
            }
            Kind::Unblock(None) => self.take_up(),
            Kind::End(task) => self.end(task),
            Kind::Acquire => self.acquire(),
            Kind::HandBack => self.hand_back(),
        }
    }
}
