//! How long a step takes, in one thread: `cargo run --release --example bench`. With the word `traced` behind that the trace is
//! written too, to nowhere; with the name of a workload only that is measured.
use kuvendyra::{channel, go, yield_now, Builder, Runtime};
use std::future::Future;
use std::time::Instant;
use std::{env, io};

const ROUNDS: u32 = 200_000;

fn timed<F: Future<Output = ()> + Send + 'static>(builder: &Builder, what: &str, main: F) {
    let begun = Instant::now();
    let ended = builder.clone().block_on(main);
    let each = begun.elapsed() / ROUNDS;
    println!("{what}: {} ns, {} entries", each.as_nanos(), ended.entries);
    assert!(ended.is_clean(), "{ended}");
}

async fn ping_pong() {
    let ((there, other), (back, here)) = (channel(0).unwrap(), channel(0).unwrap());
    go(async move {
        while let Some(value) = other.recv().await {
            back.send(value + 1).await.unwrap();
        }
    });
    let mut value = 0;
    while value < ROUNDS {
        there.send(value).await.unwrap();
        value = here.recv().await.unwrap();
    }
}

async fn buffered() {
    let (tx, rx) = channel(64).unwrap();
    go(async move {
        for i in 0..ROUNDS {
            tx.send(i).await.unwrap();
        }
    });
    while rx.recv().await.is_some() {}
}

async fn yields() {
    let all: Vec<_> = (0..16)
        .map(|_| {
            go(async {
                for _ in 0..ROUNDS / 16 {
                    yield_now().await;
                }
            })
        })
        .collect();
    for one in all {
        one.await.unwrap();
    }
}

fn main() {
    let words: Vec<String> = env::args().skip(1).collect();
    let has = |word: &str| words.iter().any(|it| it == word);
    let wants = |workload: &str| words.iter().all(|it| it == "traced") || has(workload);
    let plain = Runtime::builder().machines(1).goroutines(64);
    let builder = if has("traced") { plain.traced_to(io::sink()) } else { plain };
    if wants("ping-pong") {
        timed(&builder, "ping-pong, a round trip", ping_pong());
    }
    if wants("buffered") {
        timed(&builder, "buffered, a value", buffered());
    }
    if wants("yield") {
        timed(&builder, "yield, of 16", yields());
    }
}
