//! When threads pay: `cargo run --release --example threads`. The same programs in one thread, and by one, two and four:
//! workers that work a while for each value, and a ping-pong.
use kuvendyra::{channel, go, Builder, Runtime};
use std::future::Future;
use std::hint::black_box;
use std::time::Instant;

fn timed<F: Future<Output = ()> + Send + 'static>(what: &str, count: u32, main: impl Fn() -> F) {
    let kinds = [("one thread", Runtime::builder())].into_iter();
    let threads = [(1, "threads(1)"), (2, "threads(2)"), (4, "threads(4)")];
    let all: Vec<(&str, Builder)> =
        kinds.chain(threads.map(|(n, name)| (name, Runtime::builder().threads(n)))).collect();
    for (name, builder) in all {
        let begun = Instant::now();
        let ended = builder.block_on(main());
        println!("{what}, {name}: {:?}", begun.elapsed() / count);
        assert!(ended.is_clean(), "{ended}");
    }
}

/// Works some time that grows with the rounds.
fn work(seed: u64, rounds: u32) -> u64 {
    (0..rounds).fold(seed, |x, _| black_box(x.wrapping_mul(6_364_136_223_846_793_005).wrapping_add(1)))
}

/// Eight workers take so many values, and work for each.
async fn workers(values: u32, rounds: u32) {
    let ((tx, rx), (done, all)) = (channel(64).unwrap(), channel(8).unwrap());
    for _ in 0..8 {
        let (rx, done) = (rx.clone(), done.clone());
        go(async move {
            let mut sum = 0u64;
            while let Some(value) = rx.recv().await {
                sum = sum.wrapping_add(work(value, rounds));
            }
            done.send(sum).await.unwrap();
        });
    }
    drop(done);
    for value in 0..values {
        tx.send(u64::from(value)).await.unwrap();
    }
    drop(tx);
    let mut answers = 0;
    while all.recv().await.is_some() {
        answers += 1;
    }
    assert_eq!(answers, 8);
}

async fn ping_pong(rounds: u32) {
    let ((there, other), (back, here)) = (channel(0).unwrap(), channel(0).unwrap());
    go(async move {
        while let Some(value) = other.recv().await {
            back.send(value + 1).await.unwrap();
        }
    });
    let mut value = 0;
    while value < rounds {
        there.send(value).await.unwrap();
        value = here.recv().await.unwrap();
    }
}

fn main() {
    timed("100,000 steps of work, a value", 2_000, || workers(2_000, 100_000));
    timed("10,000 steps of work, a value", 10_000, || workers(10_000, 10_000));
    timed("1,000 steps of work, a value", 20_000, || workers(20_000, 1_000));
    timed("ping-pong, a round trip", 20_000, || ping_pong(20_000));
}
