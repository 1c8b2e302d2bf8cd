//! How a run is set up, and made.
use crate::ended::{Ended, NO_THREAD};
use crate::hand::Hand;
use crate::machines::Machines;
use crate::parts::{Outlet, Written};
use crate::random::Random;
use crate::run::{locked, Body, Run};
use crate::threads;
use crate::time::Clock;
use crate::words::Limits;
use crate::Core;
use std::fmt::Display;
use std::future::Future;
use std::io::Write;
use std::sync::atomic::AtomicU64;
use std::sync::{Arc, Mutex};
use std::time::Instant;

/// Where a run begins: [`Runtime::builder`].
///
/// ```
/// use kuvendyra::Runtime;
///
/// let ended = Runtime::builder().block_on(async { println!("hello") });
/// assert!(ended.is_clean());
/// ```
#[derive(Debug)]
pub struct Runtime;

impl Runtime {
    /// The settings of a run: 1,024 goroutines, 1 processor, 4 machines, 1,024 channels, seed 0, and no end of entries.
    ///
    /// ```
    /// use kuvendyra::Runtime;
    ///
    /// let ended = Runtime::builder().goroutines(8).machines(2).seed(5).block_on(async {});
    /// assert_eq!(ended.seed, 5);
    /// ```
    pub fn builder() -> Builder {
        let limits = Limits { procs: 1, machines: 4, channels: 1024, room: 0, entries: (1 << 63) - 1 };
        Builder { limits, goroutines: 1024, seed: 0, kind: Kind::Real, traces: Traces::No }
    }
}

/// The settings of a run.
///
/// ```
/// use kuvendyra::{sim, Runtime};
///
/// let ended = Runtime::builder().simulated().seed(9).block_on(async {});
/// assert_eq!(ended.entries, sim::run(9, || async {}).entries);
/// ```
#[derive(Clone, Debug)]
pub struct Builder {
    /// The room of the history is set where a run begins.
    limits: Limits,
    goroutines: u16,
    seed: u64,
    kind: Kind,
    pub(crate) traces: Traces,
}

/// By which clock a run goes, and in which threads.
#[derive(Clone, Copy, Debug, PartialEq)]
enum Kind {
    Real,
    Simulated,
    Threads,
}

/// Of which runs the text of the trace is wanted.
#[derive(Clone, Debug)]
pub(crate) enum Traces {
    No,
    Unclean,
    All,
    /// Of all, in parts, which go there.
    To(Outlet),
}

/// How many entries the history of a run has room for: of one by a seed, of one that is written in parts, and of others.
mod room {
    pub const SIMULATED: u64 = 1_000_000;
    pub const WRITTEN: u64 = 16_384;
    pub const REAL: u64 = 65_536;
}

/// What main may answer: nothing, or a `Result` whose error is told in [`Ended::error`].
///
/// ```
/// use kuvendyra::{Fault, Runtime};
///
/// let ended = Runtime::builder().block_on(async { Err::<(), _>(Fault::CloseOfNil) });
/// assert_eq!(ended.error.as_deref(), Some("close of nil channel"));
/// ```
pub trait Answer {
    /// The error's text, if it is one.
    fn error(self) -> Option<String>;
}

impl Answer for () {
    fn error(self) -> Option<String> {
        None
    }
}

impl<E: Display> Answer for Result<(), E> {
    fn error(self) -> Option<String> {
        self.err().map(|error| error.to_string())
    }
}

impl Builder {
    /// How many goroutines there are at a time, main among them: 1 to 4,096.
    ///
    /// ```
    /// use kuvendyra::{go, Fault, JoinError, Runtime};
    ///
    /// let ended = Runtime::builder().goroutines(1).block_on(async {
    ///     assert_eq!(go(async {}).await, Err(JoinError::NotStarted(Fault::NoFreeGoroutine)));
    /// });
    /// assert!(ended.panics.is_empty(), "{ended}");
    /// ```
    pub fn goroutines(mut self, goroutines: u16) -> Self {
        self.goroutines = goroutines;
        self
    }

    /// How many processors there are: 1 to 32. More than one makes other orders possible; for threads there is
    /// [`threads`](Builder::threads).
    ///
    /// ```
    /// use kuvendyra::Runtime;
    ///
    /// assert!(Runtime::builder().procs(2).block_on(async {}).is_clean());
    /// ```
    pub fn procs(mut self, procs: u8) -> Self {
        self.limits.procs = procs;
        self
    }

    /// How many machines there are: at least as many as processors, 64 at most. Each blocking call keeps one until it is over.
    ///
    /// ```
    /// use kuvendyra::{Outcome, Runtime};
    ///
    /// let ended = Runtime::builder().machines(65).block_on(async {});
    /// assert_eq!(ended.outcome, Outcome::Refused);
    /// ```
    pub fn machines(mut self, machines: u8) -> Self {
        self.limits.machines = machines;
        self
    }

    /// The seed of the run's choices.
    ///
    /// ```
    /// use kuvendyra::Runtime;
    ///
    /// assert_eq!(Runtime::builder().seed(7).block_on(async {}).seed, 7);
    /// ```
    pub fn seed(mut self, seed: u64) -> Self {
        self.seed = seed;
        self
    }

    /// After how many entries of its history the run ends: at least 16.
    ///
    /// ```
    /// use kuvendyra::{yield_now, Outcome, Runtime};
    ///
    /// let ended = Runtime::builder().entries(100).block_on(async {
    ///     for _ in 0..1000 {
    ///         yield_now().await;
    ///     }
    /// });
    /// assert_eq!(ended.outcome, Outcome::Full);
    /// ```
    pub fn entries(mut self, entries: u64) -> Self {
        self.limits.entries = entries;
        self
    }

    /// Makes it a simulation, as [`sim::run`](crate::sim::run) has it: 128 goroutines, 4 processors, 6 machines, 100,000
    /// entries, a virtual clock, and the machine that acts next is drawn.
    ///
    /// ```
    /// use kuvendyra::{sleep, Runtime};
    /// use std::time::Duration;
    ///
    /// let day = Duration::from_secs(86_400);
    /// let ended = Runtime::builder().simulated().block_on(async move { sleep(day).await });
    /// assert!(ended.is_clean());
    /// ```
    pub fn simulated(mut self) -> Self {
        self.kind = Kind::Simulated;
        self.goroutines = 128;
        (self.limits.procs, self.limits.machines) = (4, 6);
        self.entries(100_000)
    }

    /// Makes it a run of threads: so many bodies are polled at once, 1 to 32. There are as many processors, and each machine has
    /// a thread of its own: three more than processors, if [`machines`](Builder::machines) isn't called behind this. Of this and
    /// [`simulated`](Builder::simulated) the last that is called counts.
    ///
    /// The clock is real, and the order is no longer of the seed alone. When main has ended, the run ends once all threads have:
    /// each body that is polled comes to an `await`, and each blocking call ends. Till then such a body is told
    /// [`Fault::Over`](crate::Fault::Over) of what it asks without waiting, and no panic of it is noted.
    ///
    /// ```
    /// use kuvendyra::{channel, go, Runtime};
    ///
    /// let ended = Runtime::builder().threads(4).block_on(async {
    ///     let (tx, rx) = channel(4).unwrap();
    ///     for part in 0..4 {
    ///         let tx = tx.clone();
    ///         go(async move { tx.send((part * 250..(part + 1) * 250).sum::<u32>()).await });
    ///     }
    ///     drop(tx);
    ///     let mut sum = 0;
    ///     while let Some(part) = rx.recv().await {
    ///         sum += part;
    ///     }
    ///     assert_eq!(sum, 499_500);
    /// });
    /// assert!(ended.is_clean(), "{ended}");
    /// ```
    ///
    /// What goes to another thread has to be `Send`, which the compiler sees to:
    ///
    /// ```compile_fail
    /// use kuvendyra::{go, yield_now, Runtime};
    /// use std::rc::Rc;
    ///
    /// let ended = Runtime::builder().threads(4).block_on(async {
    ///     let count = Rc::new(1);
    ///     go(async move {
    ///         yield_now().await;
    ///         drop(count);
    ///     });
    /// });
    /// ```
    pub fn threads(mut self, threads: u8) -> Self {
        self.kind = Kind::Threads;
        self.limits.procs = threads;
        self.limits.machines = threads.saturating_add(3);
        self
    }

    /// Lets the answer have the text of the run's trace, if its history is whole: that of a simulation is, up to 1,000,000
    /// entries; that of another run, if [`entries`](Builder::entries) is 65,536 at most.
    ///
    /// ```
    /// use kuvendyra::{check, Runtime};
    ///
    /// let ended = Runtime::builder().simulated().traced().block_on(async {});
    /// assert!(ended.trace.is_none_or(|trace| check(&trace).is_ok()));
    /// ```
    pub fn traced(mut self) -> Self {
        self.traces = Traces::All;
        self
    }

    /// Writes the run's trace while the run goes on, however long that lasts: in parts, one behind another, which `gmp join`
    /// judges as one trace, and [`check`](crate::check) each alone. A part has some 12,000 entries; that of a simulation, 1,000,000
    /// at most. Each entry is replayed before it is written, which takes the longer the more [`goroutines`](Builder::goroutines)
    /// there may be. Of this and [`traced`](Builder::traced) the one that is called last counts; a search writes nothing.
    ///
    /// Each part is given to the writer by one `write_all`, and at the end it is flushed. All goroutines wait meanwhile, so it
    /// must not wait for one of them, and may use no channel of the run. Its error, or its panic, ends the run:
    /// [`Ended::unwritten`] says why. A builder and its clones have one writer.
    ///
    /// ```
    /// use kuvendyra::{yield_now, Runtime};
    /// use std::fs::File;
    ///
    /// let path = std::env::temp_dir().join("kuvendyra_run.parts");
    /// let ended = Runtime::builder().traced_to(File::create(&path)?).block_on(async {
    ///     for _ in 0..20_000 {
    ///         yield_now().await;
    ///     }
    /// });
    /// assert!(ended.is_clean(), "{ended}");
    /// # std::fs::remove_file(path)?;
    /// # Ok::<(), std::io::Error>(())
    /// ```
    pub fn traced_to(mut self, writer: impl Write + Send + 'static) -> Self {
        self.traces = Traces::To(Outlet::new(writer));
        self
    }

    /// Runs main and all that it starts until main ends or nobody can go on: in this thread, if [`threads`](Builder::threads)
    /// isn't called.
    ///
    /// ```
    /// use kuvendyra::{channel, go, Fault, Runtime};
    ///
    /// let ended = Runtime::builder().block_on(async {
    ///     let (tx, rx) = channel(0)?;
    ///     go(async move { tx.send(42).await });
    ///     assert_eq!(rx.recv().await, Some(42));
    ///     Ok::<(), Fault>(())
    /// });
    /// assert!(ended.panics.is_empty(), "{ended}");
    /// assert!(ended.is_clean());
    /// ```
    pub fn block_on<F>(self, main: F) -> Ended
    where
        F: Future + Send + 'static,
        F::Output: Answer,
    {
        let error = Arc::new(Mutex::new(None));
        let told = error.clone();
        let main: Body = Box::pin(async move {
            let answer = main.await.error();
            *locked(&told) = answer;
        });
        let mut ended = self.run(main).unwrap_or_else(|number| Ended::refused(self.seed, number));
        ended.error = ended.error.or(locked(&error).take());
        ended
    }

    /// The limits, with the room of the history.
    fn limits(&self) -> Limits {
        let most = match (self.kind, &self.traces) {
            (Kind::Simulated, _) => room::SIMULATED,
            (_, Traces::To(_)) => room::WRITTEN,
            _ => room::REAL,
        };
        Limits { room: self.limits.entries.min(most) as u32, ..self.limits }
    }

    /// The run of main, whose answer isn't told here; else the number of the refusal.
    fn run(&self, main: Body) -> Result<Ended, u32> {
        let limits = self.limits();
        let core = Core::open(&limits, self.goroutines)?;
        let written = match &self.traces {
            Traces::To(outlet) => Some(Written::open(&limits, self.goroutines, outlet)?),
            _ => None,
        };
        let mut random = Random::new(self.seed);
        let words = Random::new(random.next());
        let (clock, threads) = match self.kind {
            Kind::Real => (Clock::Real(Instant::now()), 1),
            Kind::Simulated => (Clock::Virtual(AtomicU64::new(0)), 1),
            Kind::Threads => (Clock::Real(Instant::now()), limits.machines),
        };
        let run = Run::new(core, limits, self.goroutines, clock, words, threads);
        run.lock().written = written;
        run.lock().goroutines[0].body = Some(main);
        let hand = Hand::enter(&run);
        let number = match self.kind {
            Kind::Real => Machines::new(hand.0.clone(), None).run(),
            Kind::Simulated => Machines::new(hand.0.clone(), Some(Random::new(random.next()))).run(),
            Kind::Threads => threads::run(&run).ok_or(NO_THREAD)?,
        };
        let mut ended = Ended::of(&run, number, self.seed);
        ended.trace = match self.traces {
            Traces::All => run.lock().core.text(),
            Traces::Unclean if !ended.is_clean() => run.lock().core.text(),
            _ => None,
        };
        Ok(ended)
    }
}
