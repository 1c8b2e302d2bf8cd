//! Goroutines, and how to wait for their ends.
use crate::fault::Fault;
use crate::hand::{Asking, Hand};
use crate::run::{locked, Aim, Ends, Goroutine, Job, Offer, Run};
use crate::words::{ask, Ask};
use std::fmt;
use std::future::Future;
use std::panic::{catch_unwind, AssertUnwindSafe, Location};
use std::pin::Pin;
use std::sync::{mpsc, Arc, Mutex, OnceLock, Weak};
use std::task::{Context, Poll};

/// Why there is no result.
///
/// ```
/// use kuvendyra::{go, JoinError, Runtime};
///
/// let ended = Runtime::builder().block_on(async {
///     let error = go(async { panic!("no") }).await.unwrap_err();
///     assert_eq!(error, JoinError::Panicked(String::from("no")));
/// });
/// assert_eq!(ended.panics[0].message, "no");
/// ```
#[derive(Clone, Debug, PartialEq, Eq)]
pub enum JoinError {
    /// It ended by a panic, with this message.
    Panicked(String),
    /// It was not started.
    NotStarted(Fault),
}

impl fmt::Display for JoinError {
    fn fmt(&self, f: &mut fmt::Formatter<'_>) -> fmt::Result {
        match self {
            JoinError::Panicked(message) => write!(f, "panicked: {message}"),
            JoinError::NotStarted(fault) => write!(f, "not started: {fault}"),
        }
    }
}

impl std::error::Error for JoinError {}

/// What a panic says.
pub(crate) fn message_of(panic: &(dyn std::any::Any + Send)) -> String {
    let text = panic.downcast_ref::<&str>().map(|s| s.to_string());
    text.or_else(|| panic.downcast_ref::<String>().cloned()).unwrap_or_else(|| "a panic".into())
}

struct Task<T> {
    run: Weak<Run>,
    number: OnceLock<u32>,
    end: Mutex<End<T>>,
}

/// How a goroutine ended, if it did.
struct End<T> {
    finished: bool,
    result: Option<Result<T, JoinError>>,
    /// Who waits for the end, by which ask.
    joiner: Option<(u32, u64)>,
}

impl<T> Task<T> {
    fn end(&self, result: Result<T, JoinError>) {
        let mut end = locked(&self.end);
        end.finished = true;
        end.result = Some(result);
        let joiner = end.joiner.take();
        drop(end);
        if let (Some(joiner), Some(run)) = (joiner, self.run.upgrade()) {
            run.ready(joiner);
        }
    }

    fn is_finished(&self) -> bool {
        locked(&self.end).finished
    }
}

impl<T: Send> Ends for Task<T> {
    fn panicked(&self, message: &str) {
        if !self.is_finished() {
            self.end(Err(JoinError::Panicked(message.into())));
        }
    }
}

/// A goroutine that was started. Await it for what its future answers. If the handle goes, the goroutine goes on.
///
/// ```
/// use kuvendyra::{go, Runtime};
///
/// let ended = Runtime::builder().block_on(async {
///     let (a, b) = (go(async { 1 }), go(async { "b" }));
///     assert_eq!((a.await, b.await), (Ok(1), Ok("b")));
/// });
/// assert!(ended.panics.is_empty(), "{ended}");
/// ```
pub struct JoinHandle<T> {
    task: Arc<Task<T>>,
    place: &'static Location<'static>,
    waiting: Option<Asking>,
}

impl<T> JoinHandle<T> {
    /// The goroutine's number; none, if it was not started.
    ///
    /// ```
    /// use kuvendyra::{go, Runtime};
    ///
    /// let ended = Runtime::builder().block_on(async {
    ///     let handle = go(async {});
    ///     assert_eq!(handle.goroutine(), Some(1));
    /// });
    /// assert!(ended.panics.is_empty(), "{ended}");
    /// ```
    pub fn goroutine(&self) -> Option<u32> {
        self.task.number.get().copied()
    }

    /// Whether it has ended.
    ///
    /// ```
    /// use kuvendyra::{go, yield_now, Runtime};
    ///
    /// let ended = Runtime::builder().block_on(async {
    ///     let handle = go(async {});
    ///     assert!(!handle.is_finished());
    ///     yield_now().await;
    ///     assert!(handle.is_finished());
    /// });
    /// assert!(ended.panics.is_empty(), "{ended}");
    /// ```
    pub fn is_finished(&self) -> bool {
        self.task.is_finished()
    }
}

impl<T> Unpin for JoinHandle<T> {}

impl<T> Future for JoinHandle<T> {
    type Output = Result<T, JoinError>;

    fn poll(mut self: Pin<&mut Self>, context: &mut Context<'_>) -> Poll<Self::Output> {
        let JoinHandle { task, place, waiting } = &mut *self;
        let mut end = locked(&task.end);
        if let Some(result) = end.result.take() {
            drop(end);
            // A wait that is over is told.
            if let Some(waiting) = waiting {
                let _ = Pin::new(waiting).poll(context);
            }
            return Poll::Ready(result);
        }
        assert!(!end.finished, "a result is taken once");
        drop(end);
        let number = task.number.get().copied().unwrap_or_default();
        let begin = || Asking::new(Offer::of(Ask::of(ask::PARK), place).to(Aim::End(number)));
        let waiting = waiting.get_or_insert_with(begin);
        let polled = Pin::new(&mut *waiting).poll(context);
        let mut end = locked(&task.end);
        end.joiner = waiting.waiter();
        let ended = end.joiner.filter(|_| end.finished);
        drop(end);
        if let (Some(joiner), Some(run)) = (ended, task.run.upgrade()) {
            // It ended in another thread meanwhile.
            run.ready(joiner);
        }
        polled.map(|_| Err(JoinError::NotStarted(Fault::Over)))
    }
}

impl<T> fmt::Debug for JoinHandle<T> {
    fn fmt(&self, f: &mut fmt::Formatter<'_>) -> fmt::Result {
        write!(f, "JoinHandle({:?})", self.goroutine())
    }
}

/// Starts a goroutine. It begins once a machine comes to it, and ends with its future; where main ends first it is dropped.
/// Its future is `Send`, since any thread of the run may poll it.
///
/// # Panics
///
/// Outside of a run.
///
/// ```
/// use kuvendyra::{go, Runtime};
///
/// let ended = Runtime::builder().block_on(async {
///     let sum = go(async { (1..=4).sum::<u32>() });
///     assert_eq!(sum.await, Ok(10));
/// });
/// assert!(ended.panics.is_empty(), "{ended}");
/// ```
#[track_caller]
pub fn go<T: Send + 'static>(body: impl Future<Output = T> + Send + 'static) -> JoinHandle<T> {
    let (hand, place) = (Hand::current(), Location::caller());
    let task = Arc::new(Task {
        run: Arc::downgrade(&hand.run),
        number: OnceLock::new(),
        end: Mutex::new(End { finished: false, result: None, joiner: None }),
    });
    let mine = task.clone();
    let body = Box::pin(async move { mine.end(Ok(body.await)) });
    let ends: Option<Arc<dyn Ends>> = Some(task.clone());
    match hand.spawn(Goroutine { body: Some(body), place: Some(place), ends, ..Goroutine::default() }) {
        Ok(g) => task.number.get_or_init(|| g),
        Err(fault) => {
            task.end(Err(JoinError::NotStarted(fault)));
            &0
        }
    };
    JoinHandle { task, place, waiting: None }
}

/// Runs the job in a thread of its own; other goroutines go on meanwhile. A run of [threads](crate::Builder::threads) runs it in
/// its machine's thread. A simulation runs it in its own thread, at a moment that it draws.
///
/// Each job that is under way keeps a machine: see [`Builder::machines`](crate::Builder::machines).
///
/// ```
/// use kuvendyra::{spawn_blocking, Runtime};
///
/// let ended = Runtime::builder().block_on(async {
///     let read = spawn_blocking(|| std::env::current_dir().is_ok());
///     assert_eq!(read.await, Ok(true));
/// });
/// assert!(ended.panics.is_empty(), "{ended}");
/// ```
#[track_caller]
pub fn spawn_blocking<R: Send + 'static>(
    job: impl FnOnce() -> R + Send + 'static,
) -> impl Future<Output = Result<R, JoinError>> {
    let place = Location::caller();
    async move {
        let (told, answer) = mpsc::channel();
        let job: Job = Box::new(move || drop(told.send(catch_unwind(AssertUnwindSafe(job)))));
        let mut offer = Offer::of(Ask::of(ask::BLOCK), place);
        offer.job = Some(job);
        Asking::new(offer).await;
        match answer.recv() {
            Ok(result) => result.map_err(|panic| JoinError::Panicked(message_of(&*panic))),
            Err(_) => Err(JoinError::NotStarted(Fault::NoThread)),
        }
    }
}
