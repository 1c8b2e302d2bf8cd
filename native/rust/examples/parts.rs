//! A run whose trace is written while it goes on: `cargo run --release --example parts -- run.parts` in one thread, or with
//! `4` behind that in four. Then `gmp join run.parts` judges all of it.
use kuvendyra::{channel, go, Builder, Runtime};
use std::env;
use std::error::Error;
use std::fs::File;

const VALUES: u64 = 80_000;

/// Four goroutines send values, two add them up.
async fn program() {
    let (tx, rx) = channel(8).unwrap();
    for part in 0..4 {
        let tx = tx.clone();
        go(async move {
            for value in (part..VALUES).step_by(4) {
                tx.send(value).await.unwrap();
            }
        });
    }
    drop(tx);
    let other = rx.clone();
    let half = go(async move {
        let mut sum = 0;
        while let Some(value) = other.recv().await {
            sum += value;
        }
        sum
    });
    let mut sum = 0;
    while let Some(value) = rx.recv().await {
        sum += value;
    }
    assert_eq!(sum + half.await.unwrap(), VALUES * (VALUES - 1) / 2);
}

/// One thread, or as many as the word says.
fn builder(threads: Option<String>) -> Result<Builder, Box<dyn Error>> {
    Ok(match threads {
        Some(threads) => Runtime::builder().threads(threads.parse()?),
        None => Runtime::builder(),
    })
}

fn main() -> Result<(), Box<dyn Error>> {
    let mut words = env::args().skip(1);
    let path = words.next().ok_or("the name of a file is wanted")?;
    let ended = builder(words.next())?.traced_to(File::create(path)?).block_on(program());
    println!("{ended}");
    ended.is_clean().then_some(()).ok_or_else(|| "the run is not clean".into())
}
