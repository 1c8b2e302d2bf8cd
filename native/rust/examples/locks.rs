//! Two goroutines take two locks, each the other's first: a search finds a schedule that deadlocks. With the name of a file
//! its trace is written there, for `gmp explain` and `gmp draw`: `cargo run --example locks -- locks.trace`.
use kuvendyra::{channel, go, sim, Receiver, Sender};
use std::error::Error;

/// A lock is a channel with room for one value: who sends holds it, who receives gives it back.
type Lock = (Sender<()>, Receiver<()>);

async fn both(first: Lock, second: Lock) {
    first.0.send(()).await.unwrap();
    second.0.send(()).await.unwrap();
    second.1.recv().await;
    first.1.recv().await;
}

async fn program() {
    let (a, b): (Lock, Lock) = (channel(1).unwrap(), channel(1).unwrap());
    let one = go(both(a.clone(), b.clone()));
    let other = go(both(b, a));
    one.await.unwrap();
    other.await.unwrap();
}

fn main() -> Result<(), Box<dyn Error>> {
    let found = sim::search(0..10_000, program).ok_or("no seed deadlocks")?;
    match std::env::args().nth(1) {
        Some(path) => Ok(found.save(path)?),
        None => Ok(()),
    }
}
