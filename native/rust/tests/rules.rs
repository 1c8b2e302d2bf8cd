//! Go's rules of channels, selects, sleep and goroutines, one small test a rule. Each runs by the real clock, and by ten
//! seeds of the simulation.
use kuvendyra::{channel, go, nil, now, sim, sleep, sleep_until, spawn_blocking, yield_now};
use kuvendyra::{Ended, Fault, JoinError, Outcome, Runtime, Select, TryRecvError, TrySendError};
use std::future::Future;
use std::sync::{Arc, Mutex};
use std::time::Duration;

/// Runs it each way, and looks at how it ended.
fn each<F: Future<Output = ()> + Send + 'static>(main: impl Fn() -> F, check: impl Fn(&Ended)) {
    check(&Runtime::builder().block_on(main()));
    for seed in 0..10 {
        check(&sim::run(seed, &main));
    }
}

fn clean<F: Future<Output = ()> + Send + 'static>(main: impl Fn() -> F) {
    each(main, |ended| assert!(ended.is_clean(), "{ended}"));
}

fn deadlock<F: Future<Output = ()> + Send + 'static>(main: impl Fn() -> F) {
    each(main, |ended| assert_eq!(ended.outcome, Outcome::Deadlock, "{ended}"));
}

/// What happened, in order.
#[derive(Clone, Default)]
struct Log(Arc<Mutex<Vec<u32>>>);

impl Log {
    fn add(&self, number: u32) {
        self.0.lock().unwrap().push(number);
    }

    fn is(&self, numbers: &[u32]) {
        assert_eq!(*self.0.lock().unwrap(), numbers);
    }
}

#[test]
fn values_keep_their_order() {
    clean(|| async {
        let (tx, rx) = channel(3).unwrap();
        go(async move {
            for i in 0..20 {
                tx.send(i).await.unwrap();
            }
        });
        for i in 0..20 {
            assert_eq!(rx.recv().await, Some(i));
        }
        assert_eq!(rx.recv().await, None);
    });
}

#[test]
fn a_send_without_room_waits_for_a_receiver() {
    clean(|| async {
        let (log, (tx, rx)) = (Log::default(), channel(0).unwrap());
        let other = log.clone();
        let sender = go(async move {
            tx.send(7).await.unwrap();
            other.add(2);
        });
        for _ in 0..5 {
            yield_now().await;
        }
        log.add(1);
        assert_eq!(rx.recv().await, Some(7));
        sender.await.unwrap();
        log.is(&[1, 2]);
    });
}

#[test]
fn a_send_with_room_does_not_wait() {
    clean(|| async {
        let (tx, rx) = channel(2).unwrap();
        tx.send(1).await.unwrap();
        tx.send(2).await.unwrap();
        assert_eq!(tx.try_send(3), Err(TrySendError::Full(3)));
        assert_eq!(rx.len(), 2);
        assert_eq!(rx.recv().await, Some(1));
    });
}

#[test]
fn a_full_channel_takes_the_waiting_value_when_there_is_room() {
    clean(|| async {
        let (tx, rx) = channel(1).unwrap();
        let sender = go(async move {
            tx.send(1).await.unwrap();
            tx.send(2).await.unwrap();
        });
        assert_eq!(rx.recv().await, Some(1));
        sender.await.unwrap();
        assert_eq!((rx.recv().await, rx.recv().await), (Some(2), None));
    });
}

#[test]
fn those_who_wait_first_are_served_first() {
    let ended = Runtime::builder().block_on(async {
        let (tx, rx) = channel(0).unwrap();
        let log = Log::default();
        for i in 1..=3 {
            let (rx, log) = (rx.clone(), log.clone());
            go(async move { log.add(i * 10 + rx.recv().await.unwrap_or(9)) });
            yield_now().await;
        }
        for i in 1..=3 {
            tx.send(i).await.unwrap();
        }
        yield_now().await;
        log.is(&[11, 22, 33]);
    });
    assert!(ended.is_clean(), "{ended}");
}

#[test]
fn of_those_who_wait_to_send_the_first_is_received_first() {
    let ended = Runtime::builder().block_on(async {
        let (tx, rx) = channel(1).unwrap();
        for i in 1..=4 {
            let tx = tx.clone();
            go(async move { tx.send(i).await });
            yield_now().await;
        }
        for i in 1..=4 {
            assert_eq!(rx.recv().await, Some(i));
        }
    });
    assert!(ended.is_clean(), "{ended}");
}

#[test]
fn what_was_sent_is_received_after_close() {
    clean(|| async {
        let (tx, rx) = channel(2).unwrap();
        tx.send(1).await.unwrap();
        tx.send(2).await.unwrap();
        tx.close().unwrap();
        assert_eq!((rx.recv().await, rx.recv().await, rx.recv().await), (Some(1), Some(2), None));
        assert_eq!(rx.try_recv(), Err(TryRecvError::Closed));
    });
}

#[test]
fn close_wakes_all_receivers() {
    clean(|| async {
        let (tx, rx) = channel::<u8>(0).unwrap();
        let waiting: Vec<_> =
            (0..5).map(|_| rx.clone()).map(|rx| go(async move { rx.recv().await })).collect();
        yield_now().await;
        tx.close().unwrap();
        for handle in waiting {
            assert_eq!(handle.await, Ok(None));
        }
    });
}

#[test]
fn close_wakes_a_sender_with_a_fault() {
    let main = || async {
        let (tx, rx) = channel(0).unwrap();
        let other = tx.clone();
        let sender = go(async move { other.send(5).await });
        sleep(Duration::from_millis(1)).await;
        tx.close().unwrap();
        let error = sender.await.unwrap().unwrap_err();
        assert_eq!((error.value, error.fault), (5, Fault::SendOnClosed));
        drop(rx);
    };
    each(main, |ended| {
        assert_eq!((ended.faults[0].goroutine, ended.faults.len()), (1, 1), "{ended}");
        assert!(ended.panics.is_empty(), "{ended}");
    });
}

#[test]
fn close_ends_a_select_by_its_first_case_on_the_channel() {
    clean(|| async {
        let ((_a, from_a), (b, from_b)) = (channel::<u8>(0).unwrap(), channel::<u8>(0).unwrap());
        let other = from_b.clone();
        let waits = go(async move {
            let select = Select::new().recv(&from_a, |_| 0).recv(&other, |got| 1 + got.unwrap_or(0));
            select.recv(&other, |_| 9).wait().await
        });
        sleep(Duration::from_millis(1)).await;
        b.close().unwrap();
        assert_eq!(waits.await, Ok(1));
        drop(from_b);
    });
}

#[test]
fn close_tells_a_select_that_waits_to_send_a_fault() {
    let main = || async {
        let ((_a, from_a), (b, from_b)) = (channel::<u8>(0).unwrap(), channel(0).unwrap());
        let other = b.clone();
        let waits = go(async move {
            let select = Select::new().recv(&from_a, |_| None).send(&other, 5, |sent| sent.err());
            select.wait().await.map(|error| (error.value, error.fault))
        });
        sleep(Duration::from_millis(1)).await;
        b.close().unwrap();
        assert_eq!(waits.await, Ok(Some((5, Fault::SendOnClosed))));
        drop(from_b);
    };
    each(main, |ended| {
        assert_eq!((ended.outcome, ended.faults.len()), (Outcome::MainEnded, 1), "{ended}");
        assert!(ended.panics.is_empty(), "{ended}");
    });
}

#[test]
fn faults_are_told_where_go_panics() {
    let main = || async {
        let (tx, _rx) = channel(1).unwrap();
        tx.close().unwrap();
        assert_eq!(tx.close(), Err(Fault::CloseOfClosed));
        assert_eq!(tx.send(1).await.unwrap_err().fault, Fault::SendOnClosed);
        assert!(
            matches!(tx.try_send(1), Err(TrySendError::Fault(error)) if error.fault == Fault::SendOnClosed)
        );
        let sent = Select::new().send(&tx, 1, |sent| sent.map_err(Fault::from)).wait().await;
        assert_eq!(sent, Err(Fault::SendOnClosed));
        assert_eq!(nil::<u8>().0.close(), Err(Fault::CloseOfNil));
        assert_eq!(channel::<u8>(4097).err(), Some(Fault::BadCapacity));
    };
    each(main, |ended| {
        assert_eq!((ended.outcome, ended.faults.len()), (Outcome::MainEnded, 6), "{ended}");
        assert!(ended.panics.is_empty(), "{ended}");
    });
}

#[test]
fn nil_waits_for_good() {
    deadlock(|| async { assert_eq!(nil::<u8>().1.recv().await, None) });
    deadlock(|| async { nil().0.send(1).await.unwrap() });
    deadlock(|| async { Select::new().recv(&nil::<u8>().1, |_| ()).wait().await });
}

#[test]
fn nil_has_no_value_and_no_room() {
    clean(|| async { assert_eq!((nil::<u8>().1.len(), nil::<u8>().1.capacity()), (0, 0)) });
}

#[test]
fn a_nil_case_is_passed_over() {
    clean(|| async {
        let ((_, never), (tx, rx)) = (nil::<u8>(), channel(1).unwrap());
        tx.send(3).await.unwrap();
        let got = Select::new().recv(&never, |_| None).recv(&rx, |got| got).wait().await;
        assert_eq!(got, Some(3));
        assert!(Select::new().recv(&never, |_| false).or_default(|| true).wait().await);
    });
}

#[test]
fn a_select_takes_what_can_proceed() {
    clean(|| async {
        let ((_a, from_a), (b, from_b)) = (channel::<u8>(0).unwrap(), channel(1).unwrap());
        b.send(2).await.unwrap();
        let got = Select::new().recv(&from_a, |_| 0).recv(&from_b, |got| got.unwrap()).wait().await;
        assert_eq!(got, 2);
        let sent =
            Select::new().recv(&from_a, |_| 0).send(&b, 7, |sent| 1 + u8::from(sent.is_ok())).wait().await;
        assert_eq!((sent, from_b.recv().await), (2, Some(7)));
    });
}

#[test]
fn a_select_waits_for_all_its_cases() {
    clean(|| async {
        let ((_a, from_a), (b, from_b)) = (channel::<u8>(0).unwrap(), channel(0).unwrap());
        go(async move { b.send(4).await });
        let got = Select::new().recv(&from_a, |_| None).recv(&from_b, |got| got).wait().await;
        assert_eq!(got, Some(4));
    });
}

#[test]
fn a_select_takes_each_case_in_some_run() {
    let taken = |seed| {
        let case = Arc::new(Mutex::new(0));
        let told = case.clone();
        let ended = sim::run(seed, || async move {
            let ((a, from_a), (b, from_b)) = (channel(1).unwrap(), channel(1).unwrap());
            a.send(()).await.unwrap();
            b.send(()).await.unwrap();
            let case = Select::new().recv(&from_a, |_| 1).recv(&from_b, |_| 2).wait().await;
            *told.lock().unwrap() = case;
        });
        assert!(ended.is_clean(), "{ended}");
        let case = *case.lock().unwrap();
        case
    };
    let all: Vec<i32> = (0..32).map(taken).collect();
    assert!(all.contains(&1) && all.contains(&2), "{all:?}");
}

#[test]
fn a_default_is_taken_only_where_nothing_can_proceed() {
    clean(|| async {
        let (tx, rx) = channel(1).unwrap();
        assert_eq!(Select::new().recv(&rx, |got| got).or_default(|| Some(0)).wait().await, Some(0));
        tx.send(1).await.unwrap();
        assert_eq!(Select::new().recv(&rx, |got| got).or_default(|| Some(0)).wait().await, Some(1));
    });
}

#[test]
fn a_deadline_ends_a_select() {
    clean(|| async {
        let (tx, rx) = channel::<u8>(0).unwrap();
        let (begun, late) = (now(), now() + Duration::from_millis(3));
        assert!(Select::new().recv(&rx, |_| false).until(late, || true).wait().await);
        assert!(now() >= late && now() - begun >= Duration::from_millis(3));
        go(async move { tx.send(1).await });
        let late = now() + Duration::from_secs(60);
        assert!(Select::new().recv(&rx, |_| true).until(late, || false).wait().await);
    });
}

#[test]
fn a_deadline_beside_a_default_has_no_effect() {
    clean(|| async {
        let (_tx, rx) = channel::<u8>(0).unwrap();
        let (begun, late) = (now(), now() + Duration::from_secs(3600));
        let select = Select::new().recv(&rx, |_| 0).until(late, || 1).or_default(|| 2);
        assert_eq!(select.wait().await, 2);
        assert!(now() - begun < Duration::from_secs(60));
    });
}

#[test]
fn a_select_does_not_receive_what_it_sends() {
    deadlock(|| async {
        let (tx, rx) = channel(0).unwrap();
        Select::new().send(&tx, 1, |_| ()).recv(&rx, |_| ()).wait().await;
    });
}

#[test]
fn a_closed_channel_is_always_ready_in_a_select() {
    clean(|| async {
        let (tx, rx) = channel::<u8>(0).unwrap();
        drop(tx);
        for _ in 0..3 {
            assert_eq!(Select::new().recv(&rx, |got| got).or_default(|| Some(1)).wait().await, None);
        }
    });
}

#[test]
fn a_select_has_eight_cases_at_most() {
    let select = |cases: usize| async move {
        let (tx, rx) = channel(1).unwrap();
        tx.send(3).await.unwrap();
        let all = (0..cases).fold(Select::new(), |select, i| select.recv(&rx, move |got| (i, got)));
        assert_eq!(all.wait().await.1, Some(3));
    };
    clean(|| select(8));
    each(|| select(9), |ended| assert!(ended.panics[0].message.contains("8 cases at most"), "{ended}"));
}

#[test]
fn the_value_of_another_case_goes_back() {
    clean(|| async {
        let ((a, _from_a), (b, from_b)) = (channel(0).unwrap(), channel(0).unwrap());
        go(async move { b.send(1).await });
        let mut value = Some(String::from("kept"));
        let got =
            Select::new().send_from(&a, &mut value, |_| 0).recv(&from_b, |got| got.unwrap()).wait().await;
        assert_eq!((got, value.as_deref()), (1, Some("kept")));
    });
}

#[test]
fn sleepers_wake_by_their_moments() {
    clean(|| async {
        let log = Log::default();
        let begun = now();
        let sleep_and_log = |ms: u32, log: Log| async move {
            sleep_until(begun + Duration::from_millis(ms.into())).await;
            log.add(ms);
        };
        let all: Vec<_> = [9, 1, 5].map(|ms| go(sleep_and_log(ms, log.clone()))).into();
        for handle in all {
            handle.await.unwrap();
        }
        log.is(&[1, 5, 9]);
    });
}

#[test]
fn a_sleep_until_a_moment_that_is_past_ends() {
    clean(|| async {
        let begun = now();
        sleep(Duration::from_millis(2)).await;
        sleep_until(begun).await;
        assert!(now() - begun < Duration::from_secs(60));
    });
}

#[test]
fn main_waits_for_nobody() {
    clean(|| async {
        go(async { sleep(Duration::from_secs(3600)).await });
    });
}

#[test]
fn a_goroutine_is_used_again() {
    let main = || async {
        for i in 0..50 {
            assert_eq!(go(async move { i }).await, Ok(i));
        }
    };
    let ended = Runtime::builder().goroutines(2).block_on(main());
    assert!(ended.is_clean(), "{ended}");
}

#[test]
fn too_many_goroutines_are_refused() {
    let ended = Runtime::builder().goroutines(3).block_on(async {
        let (tx, rx) = channel::<u8>(0).unwrap();
        let waits = |rx: kuvendyra::Receiver<u8>| async move { rx.recv().await };
        let (one, two, three) = (go(waits(rx.clone())), go(waits(rx.clone())), go(waits(rx)));
        assert_eq!(three.await, Err(JoinError::NotStarted(Fault::NoFreeGoroutine)));
        drop(tx);
        assert_eq!((one.await, two.await), (Ok(None), Ok(None)));
    });
    assert!(ended.faults.len() == 1 && ended.panics.is_empty(), "{ended}");
}

#[test]
fn others_go_on_while_a_call_blocks() {
    clean(|| async {
        let (tx, rx) = channel(0).unwrap();
        go(async move {
            let answer = spawn_blocking(|| {
                std::thread::sleep(Duration::from_millis(2));
                42
            });
            tx.send(answer.await.unwrap()).await
        });
        let other = go(async { 1 });
        assert_eq!((other.await, rx.recv().await), (Ok(1), Some(42)));
        let panic = spawn_blocking(|| {
            if true {
                panic!("no")
            }
        })
        .await;
        assert_eq!(panic, Err(JoinError::Panicked("no".into())));
    });
}

#[test]
fn a_deadlock_tells_who_waits() {
    let ended = sim::run(0, || async {
        let (tx, rx) = channel::<u8>(1).unwrap();
        let handle = go(async move { rx.recv().await });
        handle.await.unwrap();
        drop(tx);
    });
    assert_eq!(ended.outcome, Outcome::Deadlock);
    let what: Vec<&str> = ended.left.iter().map(|left| left.what.as_str()).collect();
    assert_eq!(what, ["waits for a ready", "waits to receive from channel 0"]);
    assert_eq!(ended.left[0].besides.as_deref(), Some("the end of goroutine 1"));
    assert!(ended.left[1].started.as_ref().is_some_and(|place| place.contains("rules.rs")));
}
