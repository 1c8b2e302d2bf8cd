//! Simulation: the same seed, the same run.
//!
//! Which machine acts next, and which case a select takes, is drawn from the seed. The clock is virtual: it moves to the next
//! deadline only where nobody can go on, so an hour takes no time. So a run is made again by its seed, as long as what
//! the goroutines do depends on nothing else: no other clock, no threads, no addresses, no `HashMap` with a random state.
//!
//! ```
//! use kuvendyra::{sim, sleep};
//! use std::time::Duration;
//!
//! let hour = || async { sleep(Duration::from_secs(3600)).await };
//! assert_eq!(sim::run(5, hour), sim::run(5, hour));
//! assert_eq!(sim::search(0..10, hour), None);
//! ```
use crate::ended::Ended;
use crate::runtime::{Answer, Builder, Runtime, Traces};
use std::future::Future;
use std::path::Path;
use std::{fs, io};

/// One run whose choices are drawn from the seed.
///
/// ```
/// use kuvendyra::{channel, go, sim};
///
/// let program = || async {
///     let (tx, rx) = channel(0).unwrap();
///     for i in 0..3 {
///         let tx = tx.clone();
///         go(async move { tx.send(i).await });
///     }
///     for _ in 0..3 {
///         rx.recv().await;
///     }
/// };
/// assert_eq!(sim::run(1, program), sim::run(1, program));
/// ```
pub fn run<F>(seed: u64, main: impl FnOnce() -> F) -> Ended
where
    F: Future + Send + 'static,
    F::Output: Answer,
{
    Runtime::builder().simulated().seed(seed).block_on(main())
}

/// What a search found.
///
/// ```
/// use kuvendyra::{nil, sim};
///
/// let found = sim::search(5..10, || async { nil::<u8>().1.recv().await; });
/// assert_eq!(found.unwrap().seed, 5);
/// ```
#[derive(Clone, Debug, PartialEq, Eq)]
pub struct Found {
    /// The seed: [`run`] by it makes the run again.
    pub seed: u64,
    /// How that run ended, with its trace.
    pub ended: Ended,
}

impl Found {
    /// Writes the trace to a file, for the commands `gmp explain` and `gmp draw`. It is an error if there is no trace.
    ///
    /// ```
    /// use kuvendyra::{nil, sim};
    ///
    /// let found = sim::search(0..1, || async { nil::<u8>().1.recv().await; }).unwrap();
    /// let path = std::env::temp_dir().join("kuvendyra_found.trace");
    /// assert_eq!(found.save(&path).is_ok(), found.ended.trace.is_some());
    /// # let _ = std::fs::remove_file(path);
    /// ```
    pub fn save(&self, path: impl AsRef<Path>) -> io::Result<()> {
        match &self.ended.trace {
            Some(trace) => fs::write(path, trace),
            None => Err(io::Error::other("the run has no trace")),
        }
    }
}

/// Runs by one seed after the other, until a run isn't clean: a deadlock, a fault, a panic, an error of main, or a goroutine
/// that main leaves waiting for good. It prints that seed, and who waits for what, in the words of `gmp explain`;
/// [`Found::save`] writes the trace.
///
/// ```
/// use kuvendyra::{channel, go, sim};
///
/// // Each takes two locks, but not in the same order: a lock is a channel with room for one value.
/// let found = sim::search(0..10_000, || async {
///     let (a, free_a) = channel(1).unwrap();
///     let (b, free_b) = channel(1).unwrap();
///     let other = {
///         let (a, b, free_a, free_b) = (a.clone(), b.clone(), free_a.clone(), free_b.clone());
///         go(async move {
///             b.send(()).await.unwrap();
///             a.send(()).await.unwrap();
///             free_a.recv().await;
///             free_b.recv().await;
///         })
///     };
///     a.send(()).await.unwrap();
///     b.send(()).await.unwrap();
///     free_b.recv().await;
///     free_a.recv().await;
///     other.await.unwrap();
/// });
/// println!("{}", found.expect("some order deadlocks").ended);
/// ```
pub fn search<F>(seeds: impl IntoIterator<Item = u64>, main: impl Fn() -> F) -> Option<Found>
where
    F: Future + Send + 'static,
    F::Output: Answer,
{
    Runtime::builder().simulated().search(seeds, main)
}

impl Builder {
    /// [`search`] with these settings.
    ///
    /// ```
    /// use kuvendyra::Runtime;
    ///
    /// let small = Runtime::builder().simulated().goroutines(4).entries(1000);
    /// assert_eq!(small.search(0..10, || async {}), None);
    /// ```
    pub fn search<F>(&self, seeds: impl IntoIterator<Item = u64>, main: impl Fn() -> F) -> Option<Found>
    where
        F: Future + Send + 'static,
        F::Output: Answer,
    {
        let mut one = self.clone();
        one.traces = Traces::Unclean;
        let mut runs = seeds.into_iter().map(|seed| (seed, one.clone().seed(seed).block_on(main())));
        let (seed, ended) = runs.find(|(_, ended)| !ended.is_clean())?;
        println!("seed {seed}: {ended}");
        Some(Found { seed, ended })
    }
}
