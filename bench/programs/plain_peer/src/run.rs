//! The threads of a run: what each does next, whom the end of a hold wakes, and the reading of files.
//!
//! A worker looks where it comes to the Mutex again without working before. While somebody looks nobody is woken. At the end of a hold at
//! which nobody looks the first sleeper is woken that can go on, which looks then. So no wake-up is lost, and one is on its way at most.

use crate::book::{Book, Outcome};
use crate::plan::{Do, Plan};
use std::fs::File;
use std::io::{self, ErrorKind, Read};
use std::sync::{Condvar, Mutex, MutexGuard};
use std::thread;

const MOST_BYTES: usize = 4_194_304;
const FIRST_ROOM: usize = 4096;

/// What a sleeper waits for: work, the items of an action, or what it takes again behind a fetch.
#[derive(Clone, Copy)]
enum Awaited {
    Work,
    Items(u32),
    Unblock(u32),
}

/// What a worker does between two holds.
#[derive(Clone, Copy)]
enum Stance {
    Away,
    Looks,
    Sleeps(Awaited),
}

/// Who is woken.
enum Woken {
    Nobody,
    One(usize),
    All,
}

enum Next {
    Item(u32),
    Skipped,
    Task(u32),
    Finish,
}

enum NextParked {
    Item(u32),
    /// It has resumed, and says whether the next action can be begun.
    Resumed(bool),
}

struct State<'p> {
    book: Book<'p>,
    stances: Vec<Stance>,
    looking: usize,
    asleep: usize,
}

struct Shared<'p> {
    plan: &'p Plan,
    state: Mutex<State<'p>>,
    // The one that each worker sleeps on.
    bells: Vec<Condvar>,
}

impl State<'_> {
    fn note(&mut self, worker: usize, stance: Stance) {
        let old = std::mem::replace(&mut self.stances[worker], stance);
        self.looking -= usize::from(matches!(old, Stance::Looks));
        self.asleep -= usize::from(matches!(old, Stance::Sleeps(_)));
        self.looking += usize::from(matches!(stance, Stance::Looks));
        self.asleep += usize::from(matches!(stance, Stance::Sleeps(_)));
    }

    fn can_go_on(&self, stance: Stance) -> bool {
        let book = &self.book;
        match stance {
            Stance::Sleeps(Awaited::Work) => book.next_item().is_some() || book.next_skip().is_some() || book.next_start().is_some(),
            Stance::Sleeps(Awaited::Items(action)) => book.can_resume(action) || book.next_item().is_some(),
            Stance::Sleeps(Awaited::Unblock(unit)) => book.can_unblock(unit),
            Stance::Away | Stance::Looks => false,
        }
    }

    // Ends a hold, behind which the worker has this stance, and says who is woken.
    fn settle(&mut self, worker: usize, stance: Stance) -> Woken {
        self.note(worker, stance);
        if self.asleep == 0 {
            return Woken::Nobody;
        }
        if self.book.all_ended() {
            self.stances.fill(Stance::Away);
            (self.looking, self.asleep) = (0, 0);
            return Woken::All;
        }
        if self.looking > 0 {
            return Woken::Nobody;
        }
        match (0..self.stances.len()).find(|other| self.can_go_on(self.stances[*other])) {
            None => Woken::Nobody,
            Some(other) => {
                self.note(other, Stance::Looks);
                Woken::One(other)
            }
        }
    }
}

impl Shared<'_> {
    fn wake(&self, woken: Woken) {
        match woken {
            Woken::Nobody => {}
            Woken::One(worker) => self.bells[worker].notify_one(),
            Woken::All => self.bells.iter().for_each(Condvar::notify_one),
        }
    }

    fn sleep<'s, 'p>(&'s self, mut state: MutexGuard<'s, State<'p>>, worker: usize, awaited: Awaited) -> MutexGuard<'s, State<'p>> {
        self.wake(state.settle(worker, Stance::Sleeps(awaited)));
        while matches!(state.stances[worker], Stance::Sleeps(_)) {
            state = self.bells[worker].wait(state).unwrap();
        }
        state
    }

    // One hold: it carries out what there is to do, and sleeps as long as there is nothing. Behind it the worker has the stance given.
    fn hold<T>(&self, worker: usize, awaited: Awaited, mut carry_out: impl FnMut(&mut Book) -> Option<(T, Stance)>) -> T {
        let mut state = self.state.lock().unwrap();
        loop {
            if let Some((done, stance)) = carry_out(&mut state.book) {
                let woken = state.settle(worker, stance);
                drop(state);
                self.wake(woken);
                return done;
            }
            state = self.sleep(state, worker, awaited);
        }
    }

    // One hold in which nothing is waited for, behind which the worker comes again at once or goes to work.
    fn enter(&self, worker: usize, stance: Stance, carry_out: impl Fn(&mut Book)) {
        self.hold(worker, Awaited::Work, |book| Some((carry_out(book), stance)))
    }

    fn next_of_idle(&self, worker: usize) -> Next {
        self.hold(worker, Awaited::Work, |book| {
            if let Some(unit) = book.next_item() {
                book.claim(worker);
                Some((Next::Item(unit), Stance::Away))
            } else if let Some(task) = book.next_skip() {
                book.skip(worker, task);
                Some((Next::Skipped, Stance::Looks))
            } else if let Some(task) = book.next_start() {
                book.start(worker, task);
                Some((Next::Task(task), Stance::Looks))
            } else if book.all_ended() {
                Some((Next::Finish, Stance::Away))
            } else {
                None
            }
        })
    }

    fn next_of_parked(&self, worker: usize, action: u32) -> NextParked {
        self.hold(worker, Awaited::Items(action), |book| {
            if book.can_resume(action) {
                book.resume(worker, action);
                let goes_on = book.has_lease(worker) && !book.has_failed(action);
                return Some((NextParked::Resumed(goes_on), Stance::Looks));
            }
            let unit = book.next_item()?;
            book.claim(worker);
            Some((NextParked::Item(unit), Stance::Away))
        })
    }

    fn run_item(&self, worker: usize, unit: u32, buffer: &mut Vec<u8>) {
        let outcome = value_of(self.plan, unit, buffer);
        self.enter(worker, Stance::Looks, |book| book.close(worker, unit, outcome));
    }

    fn fetch(&self, worker: usize, unit: u32, buffer: &mut Vec<u8>) {
        self.enter(worker, Stance::Away, |book| book.block(worker, unit));
        let outcome = value_of(self.plan, unit, buffer);
        self.hold(worker, Awaited::Unblock(unit), |book| {
            book.can_unblock(unit).then(|| (book.unblock(worker, unit, outcome), Stance::Looks))
        });
    }

    // Says whether the next action can be begun.
    fn run_action(&self, worker: usize, action: u32, buffer: &mut Vec<u8>) -> bool {
        let found = &self.plan.actions[action as usize];
        if found.fetch {
            self.fetch(worker, found.units.start, buffer);
        }
        self.enter(worker, Stance::Looks, |book| {
            book.submit(worker, action);
            book.park(worker, action);
        });
        loop {
            match self.next_of_parked(worker, action) {
                NextParked::Item(unit) => self.run_item(worker, unit, buffer),
                NextParked::Resumed(goes_on) => return goes_on,
            }
        }
    }

    fn run_task(&self, worker: usize, task: u32, buffer: &mut Vec<u8>) {
        for action in self.plan.tasks[task as usize].actions.clone() {
            if !self.run_action(worker, action, buffer) {
                break;
            }
        }
        self.enter(worker, Stance::Looks, |book| book.end(worker, task));
    }

    #[inline(never)]
    fn work(&self, worker: usize) {
        let mut buffer = vec![0; FIRST_ROOM];
        loop {
            match self.next_of_idle(worker) {
                Next::Item(unit) => self.run_item(worker, unit, &mut buffer),
                Next::Skipped => {}
                Next::Task(task) => self.run_task(worker, task, &mut buffer),
                Next::Finish => return,
            }
        }
    }
}

// Reads a file into the buffer, and says how many bytes it has. None: it has too many.
fn read_file(name: &str, buffer: &mut Vec<u8>) -> io::Result<Option<usize>> {
    let mut file = File::open(name)?;
    let mut length = 0;
    while length <= MOST_BYTES {
        if length == buffer.len() {
            buffer.resize(2 * length, 0);
        }
        match file.read(&mut buffer[length..]) {
            Ok(0) => return Ok(Some(length)),
            Ok(more) => length += more,
            Err(error) if error.kind() == ErrorKind::Interrupted => {}
            Err(error) => return Err(error),
        }
    }
    Ok(None)
}

fn is_space(byte: u8) -> bool {
    matches!(byte, b'\t'..=b'\r' | b' ')
}

// What a unit gives.
#[inline(never)]
fn value_of(plan: &Plan, unit: u32, buffer: &mut Vec<u8>) -> Outcome {
    let unit = &plan.units[unit as usize];
    let bytes = match read_file(&unit.file, buffer) {
        Ok(Some(length)) => &buffer[..length],
        Ok(None) => return Outcome::TooLong,
        Err(error) if matches!(error.kind(), ErrorKind::NotFound | ErrorKind::NotADirectory) => return Outcome::Missing,
        Err(_) => return Outcome::Fault,
    };
    let number = match unit.what {
        Do::Fetch | Do::Bytes => bytes.len(),
        Do::Lines => bytes.iter().filter(|byte| **byte == b'\n').count(),
        Do::Words => bytes.split(|byte| is_space(*byte)).filter(|word| !word.is_empty()).count(),
        Do::Longest => bytes.split(|byte| *byte == b'\n').map(<[u8]>::len).max().unwrap_or(0),
    };
    Outcome::Number(number as u64)
}

/// Runs a plan on so many threads, of which at most so many have a lease at once.
pub fn run(plan: &Plan, threads: usize, most: usize) -> Book<'_> {
    let state = State { book: Book::new(plan, most), stances: vec![Stance::Away; threads], looking: 0, asleep: 0 };
    let shared = Shared { plan, state: Mutex::new(state), bells: (0..threads).map(|_| Condvar::new()).collect() };
    // The first worker works in the thread that called.
    thread::scope(|scope| {
        for worker in 1..threads {
            let shared = &shared;
            scope.spawn(move || shared.work(worker));
        }
        shared.work(0);
    });
    shared.state.into_inner().unwrap().book
}
