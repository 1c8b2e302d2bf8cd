//! Futures that are none of the crate's.
use kuvendyra::{go, now, sim, yield_now, Outcome, Runtime};
use std::future::poll_fn;
use std::sync::{Arc, Mutex};
use std::task::{Poll, Waker};
use std::time::Duration;

#[test]
fn a_future_of_another_crate_is_awaited() {
    let ended = Runtime::builder().block_on(async {
        let (begun, mut told) = (now(), None);
        let wakes = poll_fn(move |context| match told {
            Some(()) => Poll::Ready(7),
            None => {
                told = Some(());
                let waker: Waker = context.waker().clone();
                std::thread::spawn(move || {
                    std::thread::sleep(Duration::from_millis(3));
                    waker.wake();
                });
                Poll::Pending
            }
        });
        let handle = go(wakes);
        assert_eq!(go(async { 1 }).await, Ok(1));
        assert_eq!(handle.await, Ok(7));
        assert!(now() - begun >= Duration::from_millis(3));
        let mut turns = 3;
        let yields = poll_fn(move |context| {
            turns -= 1;
            context.waker().wake_by_ref();
            if turns == 0 {
                Poll::Ready(())
            } else {
                Poll::Pending
            }
        });
        yields.await;
    });
    assert!(ended.is_clean(), "{ended}");
}

/// A place for one number, and who waits for it: a future that is none of the crate's.
type Cup = Arc<Mutex<(Option<u8>, Option<Waker>)>>;

async fn drunk(cup: Cup) -> u8 {
    poll_fn(|context| {
        let (number, waker) = &mut *cup.lock().unwrap();
        *waker = Some(context.waker().clone());
        number.take().map_or(Poll::Pending, Poll::Ready)
    })
    .await
}

#[test]
fn one_goroutine_wakes_another_by_its_waker() {
    for seed in 0..20 {
        let main = || async move {
            let cup = Cup::default();
            let waits = go(drunk(cup.clone()));
            for _ in 0..seed % 4 {
                yield_now().await;
            }
            let waker = {
                let mut cup = cup.lock().unwrap();
                cup.0 = Some(5);
                cup.1.take()
            };
            if let Some(waker) = waker {
                waker.wake();
            }
            assert_eq!(waits.await, Ok(5));
        };
        let ended = sim::run(seed, main);
        assert!(ended.is_clean(), "{ended}");
        assert_eq!(sim::run(seed, main), ended);
    }
    let ended = sim::run(0, || async {
        drunk(Cup::default()).await;
    });
    assert_eq!(ended.outcome, Outcome::Deadlock);
    assert!(ended.left[0].what.starts_with("in a blocking call of machine "), "{ended}");
    assert_eq!(ended.left[0].besides.as_deref(), Some("a future that is none of this crate"));
}
