//! Runs of several threads.
use kuvendyra::{channel, check, go, nil, now, sleep, spawn_blocking, yield_now};
use kuvendyra::{Builder, Ended, Fault, JoinError, Outcome, Receiver, Runtime, Select, Sender};
use std::collections::HashSet;
use std::future::Future;
use std::sync::{Arc, Barrier};
use std::thread;
use std::time::Duration;

fn threads(n: u8) -> Builder {
    Runtime::builder().threads(n)
}

/// The trace of a run of one to four threads is there, and right.
fn judged(ended: &Ended) {
    let right = ended.trace.as_ref().map(|trace| check(trace));
    assert!(right == Some(Ok(())) || cfg!(feature = "mock"), "{right:?}, {ended}");
}

/// Runs it by one, two and four threads, with a trace, which is judged; each is clean.
fn clean<F: Future<Output = ()> + Send + 'static>(main: impl Fn() -> F) {
    for n in [1, 2, 4] {
        let ended = threads(n).entries(60_000).traced().block_on(main());
        assert!(ended.is_clean(), "{n} threads: {ended}");
        judged(&ended);
    }
}

#[test]
fn ends_may_go_to_other_threads() {
    fn is_send<T: Send>() {}
    is_send::<(Sender<u8>, Receiver<u8>, kuvendyra::JoinHandle<u8>, Select<'static, u8>)>();
}

#[test]
fn ping_pong() {
    clean(|| async {
        let ((there, other), (back, here)) = (channel(0).unwrap(), channel(0).unwrap());
        go(async move {
            while let Some(value) = other.recv().await {
                back.send(value + 1).await.unwrap();
            }
        });
        let mut value = 0;
        while value < 500 {
            there.send(value).await.unwrap();
            value = here.recv().await.unwrap();
        }
        assert_eq!(value, 500);
    });
}

#[test]
fn sums_of_four_come_out() {
    for capacity in [0, 1, 16] {
        clean(move || async move {
            let (tx, rx) = channel(capacity).unwrap();
            for part in 0..4 {
                let tx = tx.clone();
                go(async move {
                    for i in part * 250..(part + 1) * 250 {
                        tx.send(i).await.unwrap();
                    }
                });
            }
            drop(tx);
            let mut sum = 0;
            while let Some(i) = rx.recv().await {
                sum += i;
            }
            assert_eq!(sum, (0..1000).sum::<u32>());
        });
    }
}

#[test]
fn bodies_run_side_by_side() {
    let begun = Arc::new(Barrier::new(4));
    let ended = threads(4).block_on(async move {
        // Each body keeps its thread until all four are polled.
        let side = |begun: Arc<Barrier>| async move {
            begun.wait();
            thread::current().id()
        };
        let all: Vec<_> = (0..4).map(|_| go(side(begun.clone()))).collect();
        let mut ids = HashSet::new();
        for one in all {
            ids.insert(one.await.unwrap());
        }
        assert_eq!(ids.len(), 4);
    });
    assert!(ended.is_clean(), "{ended}");
}

#[test]
fn a_select_gets_all_that_is_sent() {
    clean(|| async {
        let ((a, from_a), (b, from_b)) = (channel(0).unwrap(), channel(2).unwrap());
        for tx in [a, b] {
            go(async move {
                for i in 1..=100 {
                    tx.send(i).await.unwrap();
                }
            });
        }
        let (mut sum, mut open) = (0, [true, true]);
        let (_, never) = nil();
        while open != [false, false] {
            let rxs = [&from_a, &from_b].map(|rx| rx.clone());
            let [first, second] = [0, 1].map(|i| if open[i] { &rxs[i] } else { &never });
            let select = Select::new().recv(first, |got| (0, got)).recv(second, |got| (1, got));
            match select.until(now() + Duration::from_secs(60), || panic!("late")).wait().await {
                (_, Some(value)) => sum += value,
                (i, None) => open[i] = false,
            }
        }
        assert_eq!(sum, 2 * 5050);
    });
}

#[test]
fn selects_that_send_and_receive_meet_in_pairs() {
    clean(|| async {
        let (tx, rx) = channel::<u32>(0).unwrap();
        for _ in 0..10 {
            let meet = |i, tx: Sender<u32>, rx: Receiver<u32>| async move {
                Select::new().send(&tx, i, |sent| sent.err().map(|_| 99)).recv(&rx, |got| got).wait().await
            };
            let all: Vec<_> = (0..8).map(|i| go(meet(i, tx.clone(), rx.clone()))).collect();
            let mut got = HashSet::new();
            for (i, one) in (0..).zip(all) {
                if let Some(other) = one.await.unwrap() {
                    assert!(other != i && other < 8 && got.insert(other));
                }
            }
            assert_eq!(got.len(), 4);
        }
    });
}

#[test]
fn a_close_wakes_all_who_wait() {
    clean(|| async {
        let (tx, rx) = channel::<u8>(0).unwrap();
        let all: Vec<_> = (0..8).map(|_| rx.clone()).map(|rx| go(async move { rx.recv().await })).collect();
        sleep(Duration::from_millis(1)).await;
        tx.close().unwrap();
        for one in all {
            assert_eq!(one.await, Ok(None));
        }
    });
}

#[test]
fn a_close_or_a_receiver_that_goes_is_told_to_senders() {
    for n in [1, 2, 4] {
        for closes in [true, false] {
            let ended = threads(n).block_on(async move {
                let (tx, rx) = channel(0).unwrap();
                let sends = |tx: Sender<u8>, plain: bool| async move {
                    let sent = match plain {
                        true => tx.send(1).await,
                        false => Select::new().send(&tx, 1, |sent| sent).wait().await,
                    };
                    sent.map_err(Fault::from)
                };
                let all: Vec<_> = (0..6).map(|i| go(sends(tx.clone(), i % 2 == 0))).collect();
                sleep(Duration::from_micros(50)).await;
                let fault = if closes { Fault::SendOnClosed } else { Fault::NoReceiver };
                let rx = Some(rx).filter(|_| closes);
                if closes {
                    tx.close().unwrap();
                }
                for one in all {
                    assert_eq!(one.await, Ok(Err(fault)));
                }
                drop(rx);
            });
            assert!(ended.outcome == Outcome::MainEnded && ended.panics.is_empty(), "{ended}");
            assert_eq!(ended.faults.len(), if closes { 6 } else { 0 }, "{ended}");
        }
    }
}

#[test]
fn others_go_on_beside_a_blocking_call() {
    clean(|| async {
        let (here, there) = (Arc::new(Barrier::new(2)), Arc::new(Barrier::new(2)));
        let (begun, over) = (here.clone(), there.clone());
        let call = go(async move {
            let job = move || {
                begun.wait();
                over.wait();
                42
            };
            spawn_blocking(job).await
        });
        // The call is under way, and ends only once main says so.
        spawn_blocking(move || here.wait()).await.unwrap();
        let (tx, rx) = channel(0).unwrap();
        go(async move { tx.send(1).await });
        assert_eq!(rx.recv().await, Some(1));
        there.wait();
        assert_eq!(call.await.unwrap(), Ok(42));
        let panic = spawn_blocking(|| {
            if true {
                panic!("no")
            }
        })
        .await;
        assert_eq!(panic, Err(JoinError::Panicked("no".into())));
    });
}

#[test]
fn a_sender_that_goes_in_a_blocking_call_closes() {
    clean(|| async {
        let (tx, rx) = channel::<u8>(0).unwrap();
        let waits = go(async move { rx.recv().await });
        spawn_blocking(move || drop(tx)).await.unwrap();
        assert_eq!(waits.await, Ok(None));
    });
}

#[test]
fn sleepers_wake_while_others_work() {
    clean(|| async {
        let sleeper = go(async {
            sleep(Duration::from_millis(2)).await;
            now()
        });
        let begun = now();
        let workers: Vec<_> = (0..4)
            .map(|_| {
                go(async {
                    for _ in 0..20 {
                        yield_now().await;
                    }
                })
            })
            .collect();
        for worker in workers {
            worker.await.unwrap();
        }
        assert!(sleeper.await.unwrap() - begun >= Duration::from_millis(1));
    });
}

#[test]
fn a_panic_is_named_and_ends_its_goroutine_alone() {
    for n in [1, 4] {
        let ended = threads(n).block_on(async {
            let (tx, rx) = channel(0).unwrap();
            let handle = go(async move {
                tx.send(1).await.unwrap();
                panic!("no {}", 2);
            });
            assert_eq!((rx.recv().await, rx.recv().await), (Some(1), None));
            assert_eq!(handle.await, Err::<(), _>(JoinError::Panicked("no 2".into())));
        });
        assert_eq!(ended.outcome, Outcome::MainEnded);
        assert_eq!((ended.panics.len(), ended.panics[0].goroutine), (1, 1), "{ended}");
        assert_eq!(ended.panics[0].message, "no 2");
        let ended = threads(n).block_on(async {
            if true {
                panic!("main")
            }
        });
        assert_eq!((ended.outcome, ended.panics[0].goroutine), (Outcome::MainEnded, 0));
    }
}

#[test]
fn an_error_of_main_is_told() {
    let ended = threads(2).block_on(async { Err::<(), _>(Fault::CloseOfNil) });
    assert_eq!(ended.error.as_deref(), Some("close of nil channel"));
}

#[test]
fn a_deadlock_is_told() {
    for n in [1, 2, 4] {
        let ended = threads(n).entries(60_000).traced().block_on(async {
            let (tx, rx) = channel::<u8>(1).unwrap();
            go(async move { rx.recv().await }).await.unwrap();
            drop(tx);
        });
        assert_eq!(ended.outcome, Outcome::Deadlock, "{ended}");
        let what: Vec<&str> = ended.left.iter().map(|left| left.what.as_str()).collect();
        assert_eq!(what, ["waits for a ready", "waits to receive from channel 0"]);
        judged(&ended);
    }
}

#[test]
fn what_others_do_when_main_has_ended_is_of_no_account() {
    for round in 0..50 {
        let ended = threads(4).block_on(async move {
            for _ in 0..3 {
                go(async {
                    let (tx, rx) = channel(1).expect("the run lasts");
                    loop {
                        tx.try_send(1).expect("the run lasts");
                        rx.try_recv().expect("the run lasts");
                        yield_now().await;
                    }
                });
            }
            for _ in 0..round {
                yield_now().await;
            }
        });
        assert!(ended.panics.is_empty() && ended.leaks().count() == 0, "{ended}");
    }
}

#[test]
fn a_full_history_ends_the_run() {
    let ended = threads(4).entries(200).block_on(async {
        let long = || async {
            for _ in 0..1000 {
                yield_now().await;
            }
        };
        go(long());
        go(long());
        long().await
    });
    assert_eq!(ended.outcome, Outcome::Full, "{ended}");
}

#[test]
fn a_long_history_goes_out_in_pieces() {
    let ended = threads(2).block_on(async {
        let (tx, rx) = channel(64).unwrap();
        go(async move {
            for i in 0..50_000 {
                tx.send(i).await.unwrap();
            }
        });
        for i in 0..50_000 {
            assert_eq!(rx.recv().await, Some(i));
        }
    });
    assert!(ended.is_clean() && ended.entries > 100_000, "{ended}");
}

#[test]
fn limits_out_of_range_are_refused() {
    for n in [0, 33, 255] {
        assert_eq!(threads(n).block_on(async {}).outcome, Outcome::Refused);
    }
    assert_eq!(threads(4).machines(3).block_on(async {}).outcome, Outcome::Refused);
    assert!(threads(4).machines(4).block_on(async {}).is_clean());
    assert!(threads(32).block_on(async {}).is_clean());
}

#[test]
fn many_handles_are_awaited() {
    clean(|| async {
        for round in 0..100 {
            let all: Vec<_> = (0..4).map(|i| go(async move { round * i })).collect();
            for (i, one) in all.into_iter().enumerate() {
                assert_eq!(one.await, Ok(round * i));
            }
        }
    });
}
