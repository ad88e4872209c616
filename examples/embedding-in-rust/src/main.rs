//! Four threads share three projects and two leases, by the C interface. The history is printed.

mod wakhurmi;

use std::sync::atomic::{AtomicUsize, Ordering};
use wakhurmi::{Onlooker, Refused, Service, Worker};

const WORKERS: u32 = 4;
const MOST: u32 = 2;
const PROJECTS: u32 = 3;

static AT_WORK: AtomicUsize = AtomicUsize::new(0);

fn work(mut worker: Worker, project: u32, onlooker: Onlooker) -> Result<(), Refused> {
    for _ in 0..100 {
        let _taken = worker.take(&[project])?;
        assert!(
            AT_WORK.fetch_add(1, Ordering::SeqCst) < MOST as usize,
            "at most so many work at once"
        );
        assert!(
            (1..=MOST).contains(&onlooker.leases_out()?),
            "and at least this one"
        );
        AT_WORK.fetch_sub(1, Ordering::SeqCst);
    }
    Ok(())
}

/// Where one fails nobody waits for it.
fn work_or_stop(worker: Worker, project: u32, onlooker: Onlooker) {
    if let Err(refused) = work(worker, project, onlooker) {
        eprintln!("{refused:?}");
        onlooker.stop().expect("a stop");
    }
}

fn main() -> Result<(), Refused> {
    // A plan's run has the all-projects lock behind those of its projects. It isn't taken here, but counts where a plan checks the history.
    let mut service = Service::open(WORKERS, MOST, PROJECTS + 1)?;
    let (workers, onlooker) = service.parts();
    std::thread::scope(|scope| {
        for (number, worker) in workers.into_iter().enumerate() {
            scope.spawn(move || work_or_stop(worker, number as u32 % PROJECTS, onlooker));
        }
    });
    print!("{}", service.finish()?);
    Ok(())
}

#[cfg(test)]
mod tests {
    use super::*;

    const STOPPED: Refused = Refused(3);
    const BAD_NUMBER: Refused = Refused(6);

    #[test]
    fn what_is_refused() -> Result<(), Refused> {
        assert_eq!(Service::open(0, MOST, PROJECTS).err(), Some(BAD_NUMBER));
        let mut service = Service::open(WORKERS, MOST, PROJECTS)?;
        let (mut workers, onlooker) = service.parts();
        assert_eq!(workers[0].take(&[1, 0]).err(), Some(BAD_NUMBER));
        assert_eq!(workers[0].take(&[PROJECTS]).err(), Some(BAD_NUMBER));
        assert_eq!(onlooker.leases_out(), Ok(0));
        assert_eq!(service.finish()?.lines().last(), Some("end 0"));
        Ok(())
    }

    #[test]
    fn a_stop_from_another_thread_ends_a_wait() -> Result<(), Refused> {
        let mut service = Service::open(WORKERS, MOST, PROJECTS)?;
        let (mut workers, onlooker) = service.parts();
        let (first, rest) = workers.split_at_mut(1);
        let _taken = first[0].take(&[0])?;
        std::thread::scope(|scope| {
            let waiter = scope.spawn(|| rest[0].take(&[0]).err());
            scope.spawn(move || onlooker.stop().expect("a stop"));
            assert_eq!(waiter.join().expect("a thread"), Some(STOPPED));
        });
        Ok(())
    }
}
