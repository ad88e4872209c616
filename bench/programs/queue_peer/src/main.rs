//! Rounds of a push and a pop of crossbeam's own queue in plain Rust: what bench/tickets.py sets tickets beside.
//! Prints the nanoseconds of three runs, as ticket_rounds does.

use std::env;
use std::sync::atomic::{AtomicU64, Ordering};
use std::thread;
use std::time::Instant;

use crossbeam_queue::ArrayQueue;

const ROOM: usize = 256;
const FEW_ROUNDS: u32 = 8;
const MANY_ROUNDS: u32 = 100_000;

fn play(queue: &ArrayQueue<u32>, rounds: u32) -> u64 {
    (0..rounds).fold(0u64, |sum, unit| {
        let _pushed = queue.push(unit);
        sum.wrapping_add(queue.pop().map_or(0, u64::from))
    })
}

fn main() {
    let words: Vec<String> = env::args().collect();
    let threads = if words.iter().any(|word| word == "four") { 4 } else { 1 };
    let rounds = if words.iter().any(|word| word == "many") { MANY_ROUNDS } else { FEW_ROUNDS };
    for _ in 0..3 {
        let queue = ArrayQueue::new(ROOM);
        let total = AtomicU64::new(0);
        let start = Instant::now();
        thread::scope(|scope| {
            for _ in 0..threads {
                scope.spawn(|| total.fetch_add(play(&queue, rounds), Ordering::Relaxed));
            }
        });
        println!("{}", start.elapsed().as_nanos());
        assert!(rounds < ROOM as u32 || total.into_inner() > 0);
    }
}
