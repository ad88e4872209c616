//! The lines of a history's text, of versions 1 and 2. Each reader gives a value, or None where the text has no such value there.

#[derive(Clone, Copy, PartialEq, Eq)]
pub enum Mark {
    Waiting,
    Queued,
    Running(u32),
    Passed,
    Failed,
    Skipped,
}

/// A change, made by the entry's worker. That of a mark has its number, the old mark and the new one.
#[derive(Clone, Copy, PartialEq, Eq)]
pub enum Change {
    Lock(u32),
    Unlock(u32),
    Take,
    Give,
    Park(u32),
    Unpark(u32),
    Enter,
    Leave,
    Task(u32, Mark, Mark),
    Action(u32, Mark, Mark),
    Unit(u32, Mark, Mark),
}

/// A unit that was closed, and whether it passed.
#[derive(Clone, Copy)]
pub struct Closed {
    pub unit: u32,
    pub passed: bool,
}

#[derive(Clone, Copy)]
pub enum Kind {
    Start(u32),
    Skip(u32),
    Submit(u32),
    Park(u32),
    Resume(u32),
    Claim(u32),
    Close(Closed),
    Block(Option<u32>),
    Unblock(Option<Closed>),
    End(u32),
    Acquire,
    HandBack,
}

/// An entry without its changes.
pub struct Entry {
    pub worker: u32,
    pub kind: Kind,
    pub finished: bool,
}

/// A line behind the head.
pub enum Line {
    Entry(Entry),
    End,
}

/// What the second line says.
pub struct Settings {
    pub workers: u32,
    pub most: u32,
    pub parallel: bool,
    pub locks: Option<u32>,
}

const MOST_WORKERS: u32 = 32;

struct Reader<'l> {
    rest: &'l [u8],
}

impl Reader<'_> {
    fn takes(&mut self, word: &[u8]) -> bool {
        match self.rest.strip_prefix(word) {
            Some(rest) => {
                self.rest = rest;
                true
            }
            None => false,
        }
    }

    fn needs(&mut self, word: &[u8]) -> Option<()> {
        self.takes(word).then_some(())
    }

    // A number below 2^64 without leading zeros.
    fn number(&mut self) -> Option<u64> {
        let mut number: u64 = 0;
        let mut length = 0;
        while let Some(digit @ b'0'..=b'9') = self.rest.get(length) {
            number = number.checked_mul(10)?.checked_add(u64::from(digit - b'0'))?;
            length += 1;
        }
        if length == 0 || length > 1 && self.rest[0] == b'0' {
            return None;
        }
        self.rest = &self.rest[length..];
        Some(number)
    }

    fn small(&mut self) -> Option<u32> {
        self.number()?.try_into().ok()
    }

    fn mark(&mut self, worker: u32) -> Option<Mark> {
        if self.takes(b"waiting") {
            Some(Mark::Waiting)
        } else if self.takes(b"queued") {
            Some(Mark::Queued)
        } else if self.takes(b"running") {
            Some(Mark::Running(worker))
        } else if self.takes(b"passed") {
            Some(Mark::Passed)
        } else if self.takes(b"failed") {
            Some(Mark::Failed)
        } else {
            self.needs(b"skipped")?;
            Some(Mark::Skipped)
        }
    }

    fn moved(&mut self, worker: u32) -> Option<(u32, Mark, Mark)> {
        let number = self.small()?;
        self.needs(b" ")?;
        let old = self.mark(worker)?;
        self.needs(b" ")?;
        Some((number, old, self.mark(worker)?))
    }

    fn change(&mut self, worker: u32) -> Option<Change> {
        if self.takes(b"unit ") {
            self.moved(worker).map(|(number, old, new)| Change::Unit(number, old, new))
        } else if self.takes(b"take") {
            Some(Change::Take)
        } else if self.takes(b"give") {
            Some(Change::Give)
        } else if self.takes(b"lock ") {
            self.small().map(Change::Lock)
        } else if self.takes(b"unlock ") {
            self.small().map(Change::Unlock)
        } else if self.takes(b"park ") {
            self.small().map(Change::Park)
        } else if self.takes(b"unpark ") {
            self.small().map(Change::Unpark)
        } else if self.takes(b"enter") {
            Some(Change::Enter)
        } else if self.takes(b"leave") {
            Some(Change::Leave)
        } else if self.takes(b"action ") {
            self.moved(worker).map(|(number, old, new)| Change::Action(number, old, new))
        } else {
            self.needs(b"task ")?;
            self.moved(worker).map(|(number, old, new)| Change::Task(number, old, new))
        }
    }

    // Whether the entry finished. Its changes are put into the list.
    fn effect(&mut self, worker: u32, changes: &mut Vec<Change>) -> Option<bool> {
        if self.takes(b"failed") {
            return Some(false);
        }
        if self.takes(b"nothing") {
            return Some(true);
        }
        changes.push(self.change(worker)?);
        while self.takes(b", ") {
            changes.push(self.change(worker)?);
        }
        Some(true)
    }

    // Whether an outcome has passed.
    fn outcome(&mut self) -> Option<bool> {
        if self.takes(b"number ") {
            return self.number().map(|_| true);
        }
        if self.takes(b"digest ") {
            let (digits, rest) = self.rest.split_at_checked(64)?;
            self.rest = rest;
            return digits.iter().all(|digit| matches!(digit, b'0'..=b'9' | b'a'..=b'f')).then_some(true);
        }
        let fails: [&[u8]; 4] = [b"missing", b"too-long", b"fault", b"no-memory"];
        fails.iter().any(|word| self.takes(word)).then_some(false)
    }

    fn closed(&mut self) -> Option<Closed> {
        let unit = self.small()?;
        self.needs(b" ")?;
        Some(Closed { unit, passed: self.outcome()? })
    }

    fn kind(&mut self) -> Option<Kind> {
        if self.takes(b"claim ") {
            self.small().map(Kind::Claim)
        } else if self.takes(b"close ") {
            self.closed().map(Kind::Close)
        } else if self.takes(b"start ") {
            self.small().map(Kind::Start)
        } else if self.takes(b"skip ") {
            self.small().map(Kind::Skip)
        } else if self.takes(b"submit ") {
            self.small().map(Kind::Submit)
        } else if self.takes(b"park ") {
            self.small().map(Kind::Park)
        } else if self.takes(b"resume ") {
            self.small().map(Kind::Resume)
        } else if self.takes(b"end ") {
            self.small().map(Kind::End)
        } else if self.takes(b"acquire") {
            Some(Kind::Acquire)
        } else if self.takes(b"handback") {
            Some(Kind::HandBack)
        } else if self.takes(b"block -") {
            Some(Kind::Block(None))
        } else if self.takes(b"block ") {
            self.small().map(|unit| Kind::Block(Some(unit)))
        } else if self.takes(b"unblock -") {
            Some(Kind::Unblock(None))
        } else {
            self.needs(b"unblock ")?;
            self.closed().map(|closed| Kind::Unblock(Some(closed)))
        }
    }

    fn entry(&mut self, number: u64, changes: &mut Vec<Change>) -> Option<Entry> {
        if self.number()? != number {
            return None;
        }
        self.needs(b" w")?;
        let worker = self.small()?;
        self.needs(b" ")?;
        let kind = self.kind()?;
        self.needs(b" | ")?;
        Some(Entry { worker, kind, finished: self.effect(worker, changes)? })
    }

    fn ends(&self) -> Option<()> {
        (self.rest == b"\n").then_some(())
    }

    fn count(&mut self) -> Option<u32> {
        self.small().filter(|count| (1..=MOST_WORKERS).contains(count))
    }

    fn parallel(&mut self) -> Option<bool> {
        if self.takes(b"yes") {
            return Some(true);
        }
        self.needs(b"no").map(|()| false)
    }
}

/// A line behind so many entries. Its changes come in place of those in the list.
pub fn read_line(line: &[u8], entries: u64, changes: &mut Vec<Change>) -> Option<Line> {
    let mut reader = Reader { rest: line };
    changes.clear();
    let found = if reader.takes(b"end ") {
        (reader.number()? == entries).then_some(Line::End)?
    } else {
        Line::Entry(reader.entry(entries + 1, changes)?)
    };
    reader.ends()?;
    Some(found)
}

/// The version that a first line begins.
pub fn read_version(line: &[u8]) -> Option<u32> {
    match line {
        b"history 1\n" => Some(1),
        b"history 2\n" => Some(2),
        _ => None,
    }
}

/// The second line of a history of this version.
pub fn read_settings(line: &[u8], version: u32) -> Option<Settings> {
    let mut reader = Reader { rest: line };
    reader.needs(b"workers ")?;
    let workers = reader.count()?;
    reader.needs(b" max ")?;
    let most = reader.count()?;
    reader.needs(b" parallel ")?;
    let parallel = reader.parallel()?;
    let locks = if version == 2 {
        reader.needs(b" locks ")?;
        Some(reader.small()?)
    } else {
        None
    };
    reader.ends()?;
    Some(Settings { workers, most, parallel, locks })
}
