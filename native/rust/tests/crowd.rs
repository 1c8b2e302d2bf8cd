//! Goroutines of several threads that do all at once, and futures of other crates there.
use kuvendyra::{channel, check, go, sim, sleep, spawn_blocking, yield_now, Ended, Runtime, Select};
use std::future::poll_fn;
use std::sync::atomic::{AtomicU32, Ordering::SeqCst};
use std::sync::{Arc, Mutex};
use std::task::{Poll, Waker};
use std::thread;
use std::time::Duration;

/// The run is clean; its trace is there, and right.
fn judged(ended: &Ended, round: u32) {
    assert!(ended.is_clean(), "round {round}: {ended}");
    let right = ended.trace.as_ref().map(|trace| check(trace));
    assert!(right == Some(Ok(())) || cfg!(feature = "mock"), "round {round}: {right:?}");
}

/// A place for one number, and who waits for it: a future that is none of the crate's.
type Cup = Arc<Mutex<(Option<u8>, Option<Waker>)>>;

async fn drunk(cup: Cup) -> u8 {
    poll_fn(|context| {
        let (number, waker) = &mut *cup.lock().unwrap();
        *waker = Some(context.waker().clone());
        number.take().map_or(Poll::Pending, Poll::Ready)
    })
    .await
}

fn fill(cup: &Cup) {
    let waker = {
        let mut cup = cup.lock().unwrap();
        cup.0 = Some(5);
        cup.1.take()
    };
    if let Some(waker) = waker {
        waker.wake();
    }
}

#[test]
fn a_future_of_another_crate_is_awaited() {
    for round in 0..60 {
        let threads = 1 + (round % 4) as u8;
        let ended = Runtime::builder().threads(threads).entries(60_000).traced().block_on(async move {
            let (mine, other) = (Cup::default(), Cup::default());
            let waits = [go(drunk(mine.clone())), go(drunk(other.clone()))];
            for _ in 0..round % 3 {
                yield_now().await;
            }
            fill(&mine);
            thread::spawn(move || fill(&other));
            for one in waits {
                assert_eq!(one.await, Ok(5));
            }
        });
        judged(&ended, round);
    }
}

#[test]
fn a_receiver_goes_as_others_send() {
    for capacity in [0, 1] {
        let ended = Runtime::builder().threads(4).entries(60_000).traced().block_on(async move {
            for round in 0..200 {
                let (tx, rx) = channel(capacity).unwrap();
                let other = tx.clone();
                let sends = go(async move { tx.send(1).await.is_ok() });
                let selects = go(async move { Select::new().send(&other, 2, |_| ()).wait().await });
                if round % 2 == 0 {
                    yield_now().await;
                }
                go(async move { drop(rx) }).await.unwrap();
                sends.await.unwrap();
                selects.await.unwrap();
            }
        });
        judged(&ended, capacity);
    }
}

/// Counts how many of its kind were dropped.
struct Counted(Arc<AtomicU32>);

impl Drop for Counted {
    fn drop(&mut self) {
        self.0.fetch_add(1, SeqCst);
    }
}

/// Goroutines that send, receive, select, sleep, start others, block and leave, all at once. All values are dropped by the end.
async fn mixed(round: u32, count: Arc<AtomicU32>, made: Arc<AtomicU32>) {
    let value = move || {
        made.fetch_add(1, SeqCst);
        Counted(count.clone())
    };
    let (tx, rx) = channel(round % 3).unwrap();
    let mut handles = vec![];
    for i in 0..4 {
        let (tx, value) = (tx.clone(), value.clone());
        handles.push(go(async move {
            for k in 0..6 {
                match (i + k) % 4 {
                    0 => Select::new().send(&tx, value(), |_| ()).wait().await,
                    1 if k == 3 => sleep(Duration::from_micros(30)).await,
                    2 if k == 4 => spawn_blocking(|| ()).await.unwrap(),
                    3 => drop(tx.try_send(value())),
                    _ => drop(tx.send(value()).await),
                }
            }
        }));
    }
    drop(tx);
    for _ in 0..3 {
        let rx = rx.clone();
        let leaves = round.is_multiple_of(5);
        handles.push(go(async move {
            while let Some(value) = rx.recv().await {
                drop(value);
                go(yield_now()).await.unwrap();
                if leaves {
                    return;
                }
            }
        }));
    }
    drop(rx);
    for handle in handles {
        handle.await.unwrap();
    }
}

/// Makes the run of this round, all of whose values have to be dropped by the end.
fn counted(round: u32, run: impl FnOnce(Arc<AtomicU32>, Arc<AtomicU32>) -> Ended) {
    let (count, made) = (Arc::new(AtomicU32::new(0)), Arc::new(AtomicU32::new(0)));
    judged(&run(count.clone(), made.clone()), round);
    assert_eq!(count.load(SeqCst), made.load(SeqCst), "round {round}");
}

#[test]
fn two_hundred_runs_of_a_mixed_program() {
    for round in 0..200 {
        let threads = Runtime::builder().threads(1 + (round % 4) as u8).entries(60_000).traced();
        counted(round, |count, made| threads.block_on(mixed(round, count, made)));
    }
}

#[test]
fn the_same_program_by_a_seed() {
    for round in 0..50 {
        let one = Runtime::builder().simulated().traced().seed(round.into());
        counted(round, |count, made| one.block_on(mixed(round, count, made)));
        let again = |seed| sim::run(seed, || mixed(round, Arc::default(), Arc::default()));
        assert_eq!(again(7), again(7));
    }
}
