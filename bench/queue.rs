//! `queue WORKLOAD` puts 4,000,000 tickets into a FIFO deque of crossbeam-deque and takes them, and writes to standard error what
//! gmp_queue_bench writes. WORKLOAD is `one`, `bursts`, or `thieves N`, as there.

use crossbeam_deque::{Steal, Stealer, Worker};
use std::sync::atomic::{AtomicBool, Ordering};
use std::thread;
use std::time::{Duration, Instant};

type Ticket = (u16, u64);

const TICKETS: u64 = 4_000_000;
const BURST: u64 = 32;

/// How many tickets were taken, and the sum of their epochs.
#[derive(Clone, Copy, Default)]
struct Tally {
    count: u64,
    epochs: u64,
}

impl Tally {
    fn add(&mut self, epoch: u64) {
        self.count += 1;
        self.epochs += epoch;
    }

    fn and(self, other: Tally) -> Tally {
        Tally {
            count: self.count + other.count,
            epochs: self.epochs + other.epochs,
        }
    }
}

/// How long the owner took, and what was popped and stolen.
struct Ran {
    passed: Duration,
    popped: Tally,
    stolen: Tally,
}

fn put(owner: &Worker<Ticket>, epoch: u64) {
    owner.push(((epoch & 0xffff) as u16, epoch));
}

fn one_by_one(owner: &Worker<Ticket>) -> Tally {
    let mut popped = Tally::default();
    for epoch in 0..TICKETS {
        put(owner, epoch);
        if let Some((_, epoch)) = owner.pop() {
            popped.add(epoch);
        }
    }
    popped
}

fn in_bursts(owner: &Worker<Ticket>) -> Tally {
    let mut popped = Tally::default();
    for burst in 0..TICKETS / BURST {
        for place in 0..BURST {
            put(owner, burst * BURST + place);
        }
        while let Some((_, epoch)) = owner.pop() {
            popped.add(epoch);
        }
    }
    popped
}

fn timed(owner: &Worker<Ticket>, work: fn(&Worker<Ticket>) -> Tally) -> Ran {
    let start = Instant::now();
    let popped = work(owner);
    Ran {
        passed: start.elapsed(),
        popped,
        stolen: Tally::default(),
    }
}

/// Steals without a pause until the owner is done.
fn steal_all(thief: &Stealer<Ticket>, done: &AtomicBool) -> Tally {
    let mut stolen = Tally::default();
    loop {
        match thief.steal() {
            Steal::Success((_, epoch)) => stolen.add(epoch),
            Steal::Empty | Steal::Retry => {
                if done.load(Ordering::SeqCst) {
                    return stolen;
                }
            }
        }
    }
}

fn beside_thieves(owner: &Worker<Ticket>, count: usize) -> Ran {
    let done = AtomicBool::new(false);
    thread::scope(|scope| {
        let start_thief = |_| {
            let thief = owner.stealer();
            let done = &done;
            scope.spawn(move || steal_all(&thief, done))
        };
        let threads: Vec<_> = (0..count).map(start_thief).collect();
        let ran = timed(owner, in_bursts);
        done.store(true, Ordering::SeqCst);
        let tallies = threads
            .into_iter()
            .map(|thread| thread.join().expect("a thief ended"));
        let stolen = tallies.fold(Tally::default(), Tally::and);
        Ran { stolen, ..ran }
    })
}

fn main() {
    let words: Vec<String> = std::env::args().skip(1).collect();
    let words: Vec<&str> = words.iter().map(String::as_str).collect();
    let owner = Worker::new_fifo();
    let ran = match words[..] {
        ["one"] => timed(&owner, one_by_one),
        ["bursts"] => timed(&owner, in_bursts),
        ["thieves", count] => beside_thieves(&owner, count.parse().expect("a number of thieves")),
        _ => panic!("queue (one | bursts | thieves N)"),
    };
    let all = ran.popped.and(ran.stolen);
    assert_eq!(
        (all.count, all.epochs),
        (TICKETS, TICKETS * (TICKETS - 1) / 2)
    );
    let stolen = ran.stolen.count;
    let nanoseconds = ran.passed.as_nanos() as f64 / TICKETS as f64;
    eprintln!("{nanoseconds:.1} ns a ticket, {stolen} of {TICKETS} stolen");
}
