//! Runs whose trace is written in parts while they go on.
use kuvendyra::{
    channel, check, go, sleep, spawn_blocking, yield_now, Builder, Ended, Outcome, Runtime, Select,
};
use std::future::Future;
use std::io::{self, BufWriter, Write};
use std::sync::{Arc, Mutex};
use std::time::Duration;

/// What was written, and how many times more it may be written on.
#[derive(Clone)]
struct Paper(Arc<Mutex<(String, usize)>>);

impl Paper {
    fn of(times: usize) -> Paper {
        Paper(Arc::new(Mutex::new((String::new(), times))))
    }

    fn text(&self) -> String {
        self.0.lock().unwrap().0.clone()
    }
}

impl Write for Paper {
    fn write(&mut self, bytes: &[u8]) -> io::Result<usize> {
        let (text, times) = &mut *self.0.lock().unwrap();
        *times = times.checked_sub(1).ok_or_else(|| io::Error::other("no paper"))?;
        text.push_str(std::str::from_utf8(bytes).unwrap());
        Ok(bytes.len())
    }

    fn flush(&mut self) -> io::Result<()> {
        Ok(())
    }
}

/// A run of few goroutines, whose parts are short.
fn small() -> Builder {
    Runtime::builder().goroutines(16)
}

/// Runs it, and gives what was written.
fn written<F: Future<Output = ()> + Send + 'static>(builder: Builder, main: F) -> (Ended, String) {
    let paper = Paper::of(usize::MAX);
    let ended = builder.traced_to(paper.clone()).block_on(main);
    (ended, paper.text())
}

/// How many entries the part has, which goes on behind so many, and has to be right. The last ends so, the others don't end the run.
fn entries_of(part: &str, before: u64, end: &str) -> u64 {
    if let Some(entries) = part.strip_suffix(" entries\n").filter(|_| cfg!(feature = "mock")) {
        return entries.parse().unwrap();
    }
    assert_eq!(check(part), Ok(()));
    let mut lines = part.lines();
    assert!(lines.any(|line| line.starts_with(&format!("start {before} "))), "{}", &part[..200]);
    assert_eq!(lines.next_back(), Some(end));
    lines.skip_while(|line| *line != "begin").count() as u64 - 1
}

/// How many parts were written, and how many entries they have; each goes on where the one before stops.
fn parts_of(text: &str, end: &str) -> (usize, u64) {
    let begins = if cfg!(feature = "mock") { "" } else { "gmp-trace " };
    let mut starts: Vec<usize> = text.match_indices('\n').map(|(at, _)| at + 1).collect();
    starts.retain(|at| *at == text.len() || text[*at..].starts_with(begins));
    let (mut at, mut entries) = (0, 0);
    for (i, next) in starts.iter().enumerate() {
        let end = if i + 1 == starts.len() { end } else { "end running" };
        entries += entries_of(&text[at..*next], entries, end);
        at = *next;
    }
    assert_eq!(at, text.len());
    (starts.len(), entries)
}

/// What was written is the whole run; answers how many parts it has.
fn joined(ended: &Ended, text: &str, end: &str) -> usize {
    assert_eq!((ended.unwritten.as_ref(), ended.trace.as_ref()), (None, None), "{ended}");
    let (parts, entries) = parts_of(text, end);
    assert_eq!(entries, ended.entries);
    parts
}

/// Rounds with as many values each make more than 200,000 entries.
const ROUNDS: u32 = 800;
const VALUES: u32 = if cfg!(feature = "mock") { 120 } else { 60 };

/// Goroutines that begin and end, send, receive, select, sleep, yield and block, over channels that are made and closed.
async fn mixed(rounds: u32) {
    for round in 0..rounds {
        let (tx, rx) = channel(round % 3).unwrap();
        let sums: Vec<_> = (0..3)
            .map(|_| {
                let rx = rx.clone();
                go(async move {
                    let mut sum = 0;
                    while let Some(value) = Select::new().recv(&rx, |got| got).wait().await {
                        sum += value;
                    }
                    sum
                })
            })
            .collect();
        drop(rx);
        let sends = go(async move {
            for value in 1..=VALUES {
                tx.send(value).await.unwrap();
            }
            if round % 50 == 0 {
                sleep(Duration::from_micros(20)).await;
                spawn_blocking(|| ()).await.unwrap();
            }
        });
        yield_now().await;
        sends.await.unwrap();
        let mut sum = 0;
        for one in sums {
            sum += one.await.unwrap();
        }
        assert_eq!(sum, VALUES * (VALUES + 1) / 2);
    }
}

#[test]
fn a_run_of_200_000_entries_is_written() {
    let (ended, text) = written(small(), mixed(ROUNDS));
    assert!(ended.is_clean() && ended.entries > 200_000, "{ended}");
    assert!(joined(&ended, &text, "end main ended") > 12);
}

#[test]
fn runs_of_200_000_entries_in_threads_are_written() {
    for n in [1, 2, 4] {
        let (ended, text) = written(small().threads(n), mixed(ROUNDS));
        assert!(ended.is_clean() && ended.entries > 200_000, "{n} threads: {ended}");
        assert!(joined(&ended, &text, "end main ended") > 12);
    }
}

#[test]
fn a_simulation_is_one_part() {
    let (ended, text) = written(Runtime::builder().simulated().seed(3), mixed(20));
    assert_eq!(joined(&ended, &text, "end main ended"), 1);
    assert_eq!(written(Runtime::builder().simulated().seed(3), mixed(20)), (ended, text));
}

#[test]
fn a_deadlock_is_written_to_its_end() {
    let (ended, text) = written(small(), async {
        mixed(ROUNDS / 8).await;
        let (_tx, rx) = channel::<u8>(0).unwrap();
        rx.recv().await;
    });
    assert_eq!((ended.outcome, ended.left.len()), (Outcome::Deadlock, 1), "{ended}");
    assert!(joined(&ended, &text, "end all asleep") > 1);
}

#[test]
fn a_run_that_makes_its_entries_is_written_to_its_end() {
    let (ended, text) = written(small().entries(30_000), mixed(u32::MAX));
    assert_eq!(ended.outcome, Outcome::Full, "{ended}");
    assert!(joined(&ended, &text, "end book full") > 2);
}

/// A writer that takes one part ends the run with the second.
fn cut_short(builder: Builder) {
    let paper = Paper::of(1);
    let ended = builder.traced_to(paper.clone()).block_on(mixed(u32::MAX));
    assert_eq!(
        (ended.outcome, ended.unwritten.as_deref()),
        (Outcome::Unwritten, Some("no paper")),
        "{ended}"
    );
    assert!(!ended.is_clean() && ended.panics.is_empty() && ended.error.is_none(), "{ended}");
    assert!(ended.to_string().contains("\ntrace: no paper"), "{ended}");
    let (parts, entries) = parts_of(&paper.text(), "end running");
    assert!(parts == 1 && entries < ended.entries && ended.entries < 40_000, "{ended}");
}

#[test]
fn a_writer_that_fails_ends_the_run() {
    cut_short(small());
    cut_short(small().threads(4));
}

#[test]
fn what_is_left_may_fail_too() {
    let ended = small().traced_to(Paper::of(0)).block_on(yield_now());
    assert_eq!(
        (ended.outcome, ended.unwritten.as_deref()),
        (Outcome::MainEnded, Some("no paper")),
        "{ended}"
    );
    assert!(!ended.is_clean());
}

struct Panics;

impl Write for Panics {
    fn write(&mut self, _: &[u8]) -> io::Result<usize> {
        panic!("no ink")
    }

    fn flush(&mut self) -> io::Result<()> {
        panic!("no ink")
    }
}

#[test]
fn a_writer_that_panics_ends_the_run() {
    for builder in [small(), small().threads(2)] {
        let ended = builder.traced_to(Panics).block_on(mixed(u32::MAX));
        assert_eq!(ended.outcome, Outcome::Unwritten, "{ended}");
        assert_eq!(ended.unwritten.as_deref(), Some("the writer panicked: no ink"));
        assert!(ended.panics.is_empty(), "{ended}");
    }
}

#[test]
fn the_writer_is_flushed() {
    let paper = Paper::of(usize::MAX);
    let builder = small().traced_to(BufWriter::with_capacity(1 << 24, paper.clone()));
    let ended = builder.clone().block_on(mixed(ROUNDS / 8));
    assert!(joined(&ended, &paper.text(), "end main ended") > 1);
    drop(builder);
}

#[test]
fn a_search_writes_nothing() {
    let paper = Paper::of(usize::MAX);
    let builder = Runtime::builder().simulated().traced_to(paper.clone());
    assert_eq!(builder.search(0..3, || mixed(2)), None);
    assert_eq!(paper.text(), "");
}

#[test]
fn who_waits_is_told_of_a_run_in_parts() {
    // A sender that is there behind the run, so the channel isn't closed in it.
    let kept = Arc::new(Mutex::new(None));
    let inside = Arc::clone(&kept);
    let (ended, _) = written(small(), async move {
        let (tx, rx) = channel::<u8>(0).unwrap();
        go(async move { rx.recv().await });
        for _ in 0..20_000 {
            yield_now().await;
        }
        *inside.lock().unwrap() = Some(tx);
    });
    assert!(ended.entries > 20_000 && ended.unwritten.is_none(), "{ended}");
    let leaks: Vec<&str> = ended.leaks().map(|left| left.what.as_str()).collect();
    assert_eq!(leaks, ["waits to receive from channel 0"]);
}
