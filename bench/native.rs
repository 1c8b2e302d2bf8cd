//! What native/rust/examples/bench.rs does with channels, by two threads and the channels of Rust's standard library: the word is
//! `ping-pong`, or `buffered`, where the channel has room for 64.
use std::env;
use std::sync::mpsc::sync_channel;
use std::thread;

const ROUNDS: u32 = 200_000;

fn ping_pong() {
    let ((there, other), (back, here)) = (sync_channel(0), sync_channel(0));
    let thread = thread::spawn(move || {
        for value in other {
            back.send(value + 1).unwrap();
        }
    });
    let mut value = 0;
    while value < ROUNDS {
        there.send(value).unwrap();
        value = here.recv().unwrap();
    }
    drop(there);
    thread.join().unwrap();
}

fn buffered() {
    let (tx, rx) = sync_channel(64);
    let thread = thread::spawn(move || {
        for i in 0..ROUNDS {
            tx.send(i).unwrap();
        }
    });
    while rx.recv().is_ok() {}
    thread.join().unwrap();
}

fn main() {
    match env::args().nth(1).as_deref() {
        Some("ping-pong") => ping_pong(),
        Some("buffered") => buffered(),
        word => panic!("ping-pong or buffered is wanted in place of {word:?}"),
    }
}
