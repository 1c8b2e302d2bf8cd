//! Panics, ends that go, futures that are dropped, and channels that are used again.
use kuvendyra::{channel, go, sim, sleep, spawn_blocking, yield_now};
use kuvendyra::{Fault, JoinError, JoinHandle, Outcome, Receiver, Runtime, Select};
use std::future::{poll_fn, Future};
use std::pin::Pin;
use std::sync::atomic::{AtomicU32, Ordering::SeqCst};
use std::sync::{Arc, Mutex};
use std::task::Poll;
use std::time::Duration;

/// Counts how many of its kind were dropped.
struct Counted(Arc<AtomicU32>);

impl Drop for Counted {
    fn drop(&mut self) {
        self.0.fetch_add(1, SeqCst);
    }
}

#[test]
fn a_panic_ends_its_goroutine_alone() {
    let ended = sim::run(0, || async {
        let (tx, rx) = channel(0).unwrap();
        let handle = go(async move {
            tx.send(1).await.unwrap();
            panic!("no {}", 2);
        });
        assert_eq!((rx.recv().await, rx.recv().await), (Some(1), None));
        assert_eq!(handle.await, Err::<(), _>(JoinError::Panicked("no 2".into())));
    });
    assert_eq!(ended.outcome, Outcome::MainEnded);
    assert_eq!((ended.panics.len(), ended.panics[0].goroutine), (1, 1));
    assert_eq!(ended.panics[0].message, "no 2");
    assert!(!ended.is_clean());
}

#[test]
fn a_panic_of_main_ends_the_run() {
    let ended = Runtime::builder().block_on(async {
        go(async { sleep(Duration::from_secs(3600)).await });
        yield_now().await;
        if true {
            panic!("main");
        }
    });
    assert_eq!((ended.outcome, ended.panics[0].goroutine), (Outcome::MainEnded, 0));
}

#[test]
fn a_panic_of_a_drop_is_caught() {
    struct Loud;
    impl Drop for Loud {
        fn drop(&mut self) {
            panic!("dropped");
        }
    }
    let ended = sim::run(0, || async {
        let loud = Loud;
        let handle = go(async move {
            let _loud = loud;
            yield_now().await;
        });
        assert!(handle.await.is_err());
    });
    assert_eq!(
        (ended.outcome, ended.panics.len(), ended.panics[0].goroutine),
        (Outcome::MainEnded, 1, 1),
        "{ended}"
    );
}

#[test]
fn an_error_of_main_is_told() {
    let ended = sim::run(0, || async { channel::<u8>(9999).map(drop) });
    assert_eq!(ended.error.as_deref(), Some("a channel has room for 4,096 values at most"));
}

#[test]
fn a_dropped_receiver_is_told_to_senders() {
    let ended = sim::run(0, || async {
        let (tx, rx) = channel(0).unwrap();
        let other = tx.clone();
        let waits = go(async move { other.send(1).await });
        sleep(Duration::from_millis(1)).await;
        drop(rx);
        assert_eq!(waits.await.unwrap().unwrap_err().fault, Fault::NoReceiver);
        let error = tx.send(2).await.unwrap_err();
        assert_eq!((error.value, error.fault), (2, Fault::NoReceiver));
        let answer = Select::new().send(&tx, 3, |sent| sent.unwrap_err().value).wait().await;
        assert_eq!(answer, 3);
    });
    assert!(ended.is_clean(), "{ended}");
}

#[test]
fn a_dropped_sender_closes() {
    let ended = sim::run(0, || async {
        let (tx, rx) = channel(1).unwrap();
        let other = tx.clone();
        drop(tx);
        other.send(1).await.unwrap();
        drop(other);
        assert_eq!((rx.recv().await, rx.recv().await), (Some(1), None));
    });
    assert!(ended.is_clean(), "{ended}");
}

#[test]
fn a_sender_that_goes_in_a_blocking_call_closes() {
    let main = || async {
        let (tx, rx) = channel::<u8>(0).unwrap();
        let waits = go(async move { rx.recv().await });
        spawn_blocking(move || drop(tx)).await.unwrap();
        assert_eq!(waits.await, Ok(None));
    };
    for ended in [Runtime::builder().block_on(main()), sim::run(0, main)] {
        assert!(ended.is_clean(), "{ended}");
    }
}

#[test]
fn all_values_are_dropped_once() {
    let count = Arc::new(AtomicU32::new(0));
    let mine = count.clone();
    let ended = sim::run(0, || async move {
        let (tx, rx) = channel(2).unwrap();
        for _ in 0..2 {
            tx.send(Counted(mine.clone())).await.unwrap();
        }
        let (late, value) = (tx.clone(), Counted(mine.clone()));
        go(async move { late.send(value).await });
        yield_now().await;
        drop(rx.recv().await);
        // Two are in the channel, and a goroutine waits to send one more, when main ends.
        let (late, value) = (tx.clone(), Counted(mine.clone()));
        go(async move { late.send(value).await });
        sleep(Duration::from_millis(1)).await;
        std::mem::drop(Select::new().send(&tx, Counted(mine.clone()), |_| ()));
    });
    assert!(ended.outcome == Outcome::MainEnded && ended.panics.is_empty(), "{ended}");
    assert_eq!(count.load(SeqCst), 5);
}

/// Polls the future once, and drops it.
async fn polled_once(future: impl Future) {
    let mut future = Box::pin(future);
    poll_fn(|context| {
        assert!(future.as_mut().poll(context).is_pending());
        Poll::Ready(())
    })
    .await;
}

#[test]
fn a_future_that_is_dropped_at_once_asks_nothing() {
    let ended = sim::run(0, || async {
        let (tx, rx) = channel(0).unwrap();
        polled_once(tx.send(1)).await;
        polled_once(rx.recv()).await;
        polled_once(Select::new().send(&tx, 5, |_| ()).recv(&rx, |_| ()).wait()).await;
        assert_eq!(rx.try_recv().ok(), None);
        go(async move { tx.send(2).await });
        assert_eq!(rx.recv().await, Some(2));
    });
    assert!(ended.is_clean(), "{ended}");
}

type Shared = Arc<Mutex<Option<Pin<Box<dyn Future<Output = Option<Counted>> + Send>>>>>;

/// Polls what is shared for as long as it is there.
async fn while_there(shared: Shared) -> bool {
    poll_fn(|context| {
        let future = shared.lock().unwrap().take();
        match future {
            None => Poll::Ready(false),
            Some(mut future) => match future.as_mut().poll(context) {
                Poll::Ready(_) => Poll::Ready(true),
                Poll::Pending => {
                    *shared.lock().unwrap() = Some(future);
                    Poll::Pending
                }
            },
        }
    })
    .await
}

#[test]
fn what_a_dropped_future_would_receive_is_dropped() {
    let count = Arc::new(AtomicU32::new(0));
    let mine = count.clone();
    let ended = sim::run(0, || async move {
        let (tx, rx) = channel::<Counted>(0).unwrap();
        let received = async move { rx.recv().await };
        let shared: Shared = Arc::new(Mutex::new(Some(Box::pin(received))));
        let waits = go(while_there(shared.clone()));
        sleep(Duration::from_millis(1)).await;
        // Another goroutine drops the future, whose goroutine waits to receive.
        let future = shared.lock().unwrap().take();
        tx.send(Counted(mine.clone())).await.unwrap();
        drop(future);
        assert_eq!(waits.await, Ok(false));
        assert_eq!(mine.load(SeqCst), 1);
    });
    assert!(ended.is_clean() && count.load(SeqCst) == 1, "{ended}");
}

#[test]
fn a_future_stays_with_its_goroutine() {
    let ended = sim::run(0, || async {
        let (_tx, rx) = channel::<Counted>(0).unwrap();
        let received = async move { rx.recv().await };
        let shared: Shared = Arc::new(Mutex::new(Some(Box::pin(received))));
        go(while_there(shared.clone()));
        sleep(Duration::from_millis(1)).await;
        assert!(go(while_there(shared)).await.is_err());
    });
    assert!(ended.panics[0].message.contains("belongs to the goroutine"), "{ended}");
}

#[test]
fn two_waits_at_once_are_refused() {
    let ended = sim::run(0, || async {
        let (_tx, rx) = channel::<u8>(0).unwrap();
        let both = go(async move {
            let (mut one, mut two) = (Box::pin(rx.recv()), Box::pin(rx.recv()));
            poll_fn(|context| match one.as_mut().poll(context) {
                Poll::Pending => two.as_mut().poll(context),
                ready => ready,
            })
            .await
        });
        assert!(both.await.is_err());
    });
    assert_eq!(
        (ended.outcome, ended.panics.len(), ended.panics[0].goroutine),
        (Outcome::MainEnded, 1, 1),
        "{ended}"
    );
}

#[test]
fn channels_are_used_again() {
    let ended = Runtime::builder().block_on(async {
        for i in 0..3000 {
            let (tx, rx) = channel(i % 3).unwrap();
            let sent = rx.clone();
            let handle = go(async move { tx.send(i).await.map(|()| tx) });
            assert_eq!(sent.recv().await, Some(i));
            let tx = handle.await.unwrap().unwrap();
            drop((sent, rx));
            drop(tx);
        }
    });
    assert!(ended.is_clean(), "{ended}");
}

#[test]
fn a_channel_too_many_is_refused() {
    let ended = sim::run(0, || async {
        let all: Vec<_> = (0..1024).map(|_| channel::<u8>(0).unwrap()).collect();
        let error = channel::<u8>(0).unwrap_err();
        assert_eq!(error.to_string(), "1,024 channels are in use or closed");
        for (tx, rx) in all {
            drop(rx);
            drop(tx);
        }
        assert!(channel::<u8>(1).is_err(), "another capacity");
        assert!(channel::<u8>(0).is_ok());
    });
    assert!(ended.faults.len() == 2 && ended.panics.is_empty(), "{ended}");
}

#[test]
fn a_closed_channel_is_not_used_again() {
    let ended = sim::run(0, || async {
        for _ in 0..1024 {
            drop(channel::<u8>(0).unwrap().0);
        }
        assert!(channel::<u8>(0).is_err());
    });
    assert!(ended.faults.len() == 1 && ended.panics.is_empty(), "{ended}");
}

#[test]
fn a_handle_may_go() {
    let ended = sim::run(0, || async {
        let (tx, rx) = channel(0).unwrap();
        let handle: JoinHandle<_> = go(async move { tx.send(1).await });
        drop(handle);
        assert_eq!(rx.recv().await, Some(1));
    });
    assert!(ended.is_clean(), "{ended}");
}

#[test]
fn many_wait_in_turn() {
    let ended = sim::run(3, || async {
        let (tx, rx) = channel::<u32>(4).unwrap();
        let adds = |rx: Receiver<u32>| async move {
            let mut sum = 0;
            while let Some(value) = rx.recv().await {
                sum += value;
            }
            sum
        };
        let workers: Vec<_> = (0..8).map(|_| go(adds(rx.clone()))).collect();
        for value in 1..=100 {
            tx.send(value).await.unwrap();
        }
        drop(tx);
        let mut sum = 0;
        for worker in workers {
            sum += worker.await.unwrap();
        }
        assert_eq!(sum, 5050);
    });
    assert!(ended.is_clean(), "{ended}");
}

#[test]
fn a_leak_is_told() {
    let kept = Arc::new(Mutex::new(None));
    let mine = kept.clone();
    let ended = sim::run(0, || async move {
        let (tx, rx) = channel::<u8>(0).unwrap();
        go(async move { rx.recv().await });
        sleep(Duration::from_millis(1)).await;
        // What is kept beyond the run keeps the channel open.
        *mine.lock().unwrap() = Some(tx);
    });
    assert_eq!((ended.outcome, ended.leaks().count()), (Outcome::MainEnded, 1), "{ended}");
    assert!(!ended.is_clean());
}

#[test]
fn a_long_history_goes_out_in_pieces() {
    let ended = Runtime::builder().block_on(async {
        let (tx, rx) = channel(1).unwrap();
        go(async move {
            for i in 0..50_000 {
                tx.send(i).await.unwrap();
            }
        });
        let mut count = 0;
        while let Some(value) = rx.recv().await {
            assert_eq!(value, count);
            count += 1;
        }
        assert_eq!(count, 50_000);
    });
    assert!(ended.is_clean() && ended.entries > 100_000, "{ended}");
}

#[test]
fn runs_within_runs() {
    let ended = sim::run(0, || async {
        let (tx, rx) = channel(1).unwrap();
        tx.send(1).await.unwrap();
        let inner = sim::run(1, || async {
            let (tx, rx) = channel(1).unwrap();
            tx.send(2).await.unwrap();
            assert_eq!(rx.recv().await, Some(2));
        });
        assert!(inner.is_clean());
        assert_eq!(rx.recv().await, Some(1));
    });
    assert!(ended.is_clean(), "{ended}");
}

#[test]
fn a_channel_of_another_run_is_refused() {
    let out = Arc::new(Mutex::new(None));
    let mine = out.clone();
    let _ = sim::run(0, || async move {
        *mine.lock().unwrap() = channel::<u8>(1).ok();
    });
    let ends = out.lock().unwrap().take();
    let ended = sim::run(0, || async move { assert!(ends.unwrap().0.send(1).await.is_ok()) });
    assert!(ended.panics[0].message.contains("another run"), "{ended}");
    let out = Arc::new(Mutex::new(None));
    let mine = out.clone();
    let _ = sim::run(0, || async move {
        *mine.lock().unwrap() = channel::<u8>(1).ok();
    });
    let ends = out.lock().unwrap().take();
    let ended = sim::run(0, || async move { Select::new().recv(&ends.unwrap().1, |_| ()).wait().await });
    assert!(ended.panics[0].message.contains("another run"), "{ended}");
}

#[test]
fn a_job_that_is_under_way_does_not_keep_the_run() {
    let ended = Runtime::builder().block_on(async {
        go(async { spawn_blocking(|| std::thread::sleep(Duration::from_millis(50))).await });
        yield_now().await;
    });
    assert!(ended.is_clean(), "{ended}");
}
