//! Searches through seeds.
use kuvendyra::{channel, check, go, sim, yield_now, Fault, Outcome, Receiver, Runtime, Sender};
use std::time::Instant;

type Lock = (Sender<()>, Receiver<()>);

async fn both(first: Lock, second: Lock) {
    first.0.send(()).await.unwrap();
    second.0.send(()).await.unwrap();
    second.1.recv().await;
    first.1.recv().await;
}

/// Two goroutines take two locks; by `inverted` one takes the second first.
async fn locks(inverted: bool) {
    let (a, b): (Lock, Lock) = (channel(1).unwrap(), channel(1).unwrap());
    let one = go(both(a.clone(), b.clone()));
    let other = if inverted { go(both(b, a)) } else { go(both(a, b)) };
    one.await.unwrap();
    other.await.unwrap();
}

#[test]
fn an_order_of_locks_that_deadlocks_is_found() {
    let found = sim::search(0..10_000, || locks(true)).expect("a seed that deadlocks");
    assert_eq!(found.ended.outcome, Outcome::Deadlock);
    assert_eq!(sim::search(0..10_000, || locks(true)), Some(found.clone()));
    let again = Runtime::builder().simulated().traced().seed(found.seed).block_on(locks(true));
    assert_eq!(again, found.ended);
    let right = found.ended.trace.as_ref().map(|trace| check(trace));
    assert!(right == Some(Ok(())) || cfg!(feature = "mock"), "{right:?}");
    let waits = |text: &str| again.left.iter().filter(|left| left.what.starts_with(text)).count();
    assert_eq!((waits("waits to send "), waits("waits for a ready")), (2, 1));
}

#[test]
fn ten_thousand_seeds_are_run() {
    let begun = Instant::now();
    let deadlocks = |seed: &u64| sim::run(*seed, || locks(true)).outcome == Outcome::Deadlock;
    let found: Vec<u64> = (0..10_000).filter(deadlocks).collect();
    assert!(!found.is_empty() && found.len() < 10_000);
    println!("{} of 10,000, the first is {}; {:?}", found.len(), found[0], begun.elapsed());
}

#[test]
fn locks_in_order_never_deadlock() {
    assert_eq!(sim::search(0..2000, || locks(false)), None);
}

#[test]
fn a_panic_is_found() {
    let main = || async {
        let (tx, rx) = channel(2).unwrap();
        for i in [1, 2] {
            let tx = tx.clone();
            go(async move { tx.send(i).await });
        }
        assert_eq!(rx.recv().await, Some(1), "the first came last");
    };
    let found = sim::search(0..10_000, main).expect("a seed that panics");
    assert!(found.ended.panics[0].message.contains("the first came last"));
}

#[test]
fn a_fault_and_a_leak_are_found() {
    let early = || async {
        let (tx, rx) = channel(1).unwrap();
        let other = tx.clone();
        let sends = go(async move { other.send(1).await.is_ok() });
        yield_now().await;
        tx.close().unwrap();
        let _ = sends.await;
        drop(rx);
    };
    let found = sim::search(0..10_000, early).expect("a seed by which the close comes first");
    assert_eq!(found.ended.faults[0].fault, Fault::SendOnClosed);
    let leaky = || async {
        let (tx, rx) = channel(0).unwrap();
        for i in [1, 2] {
            let tx = tx.clone();
            go(async move { tx.send(i).await });
        }
        rx.recv().await;
        yield_now().await;
        std::mem::forget(rx);
    };
    let found = sim::search(0..10_000, leaky).expect("a seed that leaks");
    assert_eq!(found.ended.leaks().count(), 1);
}
