//! Moments of a run's clock, and sleep.
use crate::hand::{Asking, Hand};
use crate::words::{ask, Ask, LAST};
use std::fmt;
use std::future::Future;
use std::ops::{Add, Sub};
use std::panic::Location;
use std::sync::atomic::{AtomicU64, Ordering};
use std::time::{Duration, Instant};

/// A moment of the run's clock, which begins at 0. In a simulation the clock is virtual.
///
/// ```
/// use kuvendyra::{now, sim, sleep};
/// use std::time::Duration;
///
/// let ended = sim::run(0, || async {
///     let before = now();
///     sleep(Duration::from_secs(3600)).await;
///     assert_eq!(now() - before, Duration::from_secs(3600));
/// });
/// assert!(ended.panics.is_empty(), "{ended}");
/// ```
#[derive(Clone, Copy, Debug, Default, PartialEq, Eq, PartialOrd, Ord, Hash)]
pub struct Moment(pub(crate) u64);

impl Add<Duration> for Moment {
    type Output = Moment;
    /// The moment so much later.
    fn add(self, length: Duration) -> Moment {
        let nanos = u64::try_from(length.as_nanos()).unwrap_or(LAST);
        Moment(self.0.saturating_add(nanos).min(LAST))
    }
}

impl Sub for Moment {
    type Output = Duration;
    /// The time between; 0, if the other is later.
    fn sub(self, earlier: Moment) -> Duration {
        Duration::from_nanos(self.0.saturating_sub(earlier.0))
    }
}

impl fmt::Display for Moment {
    fn fmt(&self, f: &mut fmt::Formatter<'_>) -> fmt::Result {
        write!(f, "{:?}", Duration::from_nanos(self.0))
    }
}

/// What shows the time of a run.
pub(crate) enum Clock {
    Real(Instant),
    /// It moves only where nobody can go on before the next deadline.
    Virtual(AtomicU64),
}

impl Clock {
    pub(crate) fn now(&self) -> u64 {
        match self {
            Clock::Real(begun) => u64::try_from(begun.elapsed().as_nanos()).unwrap_or(LAST),
            Clock::Virtual(now) => now.load(Ordering::SeqCst),
        }
    }
}

/// What the run's clock shows.
///
/// # Panics
///
/// Outside of a run.
///
/// ```
/// use kuvendyra::{now, Runtime};
///
/// let ended = Runtime::builder().block_on(async { assert!(now() <= now()) });
/// assert!(ended.panics.is_empty(), "{ended}");
/// ```
pub fn now() -> Moment {
    Moment(Hand::current().run.clock.now())
}

/// Waits for so long.
///
/// ```
/// use kuvendyra::{sleep, Runtime};
/// use std::time::Duration;
///
/// let ended = Runtime::builder().block_on(async { sleep(Duration::from_millis(1)).await });
/// assert!(ended.is_clean(), "{ended}");
/// ```
#[track_caller]
pub fn sleep(length: Duration) -> impl Future<Output = ()> {
    let place = Location::caller();
    async move { sleep_from(now() + length, place).await }
}

/// Waits until the moment.
///
/// ```
/// use kuvendyra::{now, sim, sleep_until};
/// use std::time::Duration;
///
/// let ended = sim::run(0, || async {
///     let later = now() + Duration::from_secs(1);
///     sleep_until(later).await;
///     assert_eq!(now(), later);
/// });
/// assert!(ended.panics.is_empty(), "{ended}");
/// ```
#[track_caller]
pub fn sleep_until(moment: Moment) -> impl Future<Output = ()> {
    sleep_from(moment, Location::caller())
}

async fn sleep_from(moment: Moment, place: &'static Location<'static>) {
    Asking::of(Ask::with(ask::SLEEP, moment.0), place).await;
}

/// Lets others go first.
///
/// ```
/// use kuvendyra::{go, yield_now, Runtime};
///
/// let ended = Runtime::builder().block_on(async {
///     go(async { println!("other") });
///     yield_now().await;
/// });
/// assert!(ended.is_clean(), "{ended}");
/// ```
#[track_caller]
pub fn yield_now() -> impl Future<Output = ()> {
    let place = Location::caller();
    async move {
        Asking::of(Ask::of(ask::YIELD), place).await;
    }
}
