//! How a run ended.
use crate::fault::Fault;
use crate::run::{locked, Aim, Goroutine, Offer, Place, Run, State};
use crate::time::Moment;
use crate::words::{ask, outcome, status, Case, NIL, OUT_OF_MEMORY};
use std::fmt;
use std::panic::{catch_unwind, AssertUnwindSafe};

/// The number of a refusal that is none of the scheduler's: the system had no thread for a machine.
pub(crate) const NO_THREAD: u32 = 0;

/// What ended a run.
///
/// ```
/// use kuvendyra::{Outcome, Runtime};
///
/// assert_eq!(Runtime::builder().block_on(async {}).outcome, Outcome::MainEnded);
/// ```
#[derive(Clone, Copy, Debug, PartialEq, Eq)]
pub enum Outcome {
    /// Main ended. Who had not ended by then was dropped.
    MainEnded,
    /// Nobody can ever go on.
    Deadlock,
    /// It made as many entries as it may, or there was no memory for more.
    Full,
    /// A part of its trace could not be written: [`Ended::unwritten`] says why.
    Unwritten,
    /// It did not begin: the limits are out of range, or there was no memory, or too few threads.
    Refused,
}

/// A goroutine that ended by a panic.
///
/// ```
/// use kuvendyra::{go, Runtime};
///
/// let ended = Runtime::builder().block_on(async {
///     let _ = go(async { panic!("no") }).await;
/// });
/// assert_eq!((ended.panics[0].goroutine, ended.panics[0].message.as_str()), (1, "no"));
/// ```
#[derive(Clone, Debug, PartialEq, Eq)]
pub struct Panicked {
    /// Its number; main's is 0.
    pub goroutine: u32,
    /// What the panic said.
    pub message: String,
}

/// A fault that a goroutine was told.
///
/// ```
/// use kuvendyra::{channel, Fault, Runtime};
///
/// let ended = Runtime::builder().block_on(async {
///     let _ = channel::<u8>(5000);
/// });
/// assert_eq!((ended.faults[0].goroutine, ended.faults[0].fault), (0, Fault::BadCapacity));
/// ```
#[derive(Clone, Debug, PartialEq, Eq)]
pub struct Told {
    /// Its number; main's is 0.
    pub goroutine: u32,
    /// What it was told.
    pub fault: Fault,
}

/// A goroutine that had not ended when the run did.
///
/// ```
/// use kuvendyra::{channel, sim};
///
/// let ended = sim::run(0, || async {
///     let (_tx, rx) = channel::<u8>(0).unwrap();
///     rx.recv().await;
/// });
/// assert_eq!(ended.left[0].what, "waits to receive from channel 0");
/// assert!(ended.left[0].is_stuck);
/// ```
#[derive(Clone, Debug, PartialEq, Eq)]
pub struct Left {
    /// Its number; main's is 0.
    pub goroutine: u32,
    /// Where it was started, if it isn't main.
    pub started: Option<String>,
    /// What it does, as the scheduler says it, in the words of `gmp explain`: as `waits to receive from channel 3`, or
    /// `waits to send 0 on channel 3`, where the number stands for the value.
    pub what: String,
    /// What the scheduler doesn't say of it: the cases of its select, whose end it waits for, or that it awaits a future of
    /// another crate.
    pub besides: Option<String>,
    /// Where it waits.
    pub place: String,
    /// Whether it waits for good: of a deadlock all do; where main ended, who waits with no deadline.
    pub is_stuck: bool,
}

/// How a run ended. It prints as a report.
///
/// ```
/// use kuvendyra::{channel, sim};
///
/// let ended = sim::run(3, || async {
///     let (_tx, rx) = channel::<u8>(0).unwrap();
///     rx.recv().await;
/// });
/// assert!(ended.to_string().starts_with("all goroutines are asleep"));
/// assert!(!ended.is_clean());
/// ```
#[derive(Clone, Debug, PartialEq, Eq)]
#[non_exhaustive]
#[must_use = "it tells of panics, faults and deadlocks"]
pub struct Ended {
    /// What ended the run.
    pub outcome: Outcome,
    /// The seed of its choices.
    pub seed: u64,
    /// What main answered, if that was an `Err`.
    pub error: Option<String>,
    /// Who ended by a panic.
    pub panics: Vec<Panicked>,
    /// Which faults were told: those where Go panics.
    pub faults: Vec<Told>,
    /// Who had not ended, and what each does.
    pub left: Vec<Left>,
    /// How many entries the history of the run has.
    pub entries: u64,
    /// What the run's clock showed at the end.
    pub at: Moment,
    /// The text of its trace, for the commands `gmp check`, `explain` and `draw`: of a run that was
    /// [`traced`](crate::Builder::traced) or found by a search, if its history is whole.
    pub trace: Option<String>,
    /// Why its trace could not be written, or not to its end, if it should have been
    /// ([`traced_to`](crate::Builder::traced_to)).
    pub unwritten: Option<String>,
}

impl Ended {
    pub(crate) fn refused(seed: u64, number: u32) -> Ended {
        let why = match number {
            OUT_OF_MEMORY => "no memory",
            NO_THREAD => "no thread for a machine",
            _ => "limits are out of range",
        };
        Ended {
            outcome: Outcome::Refused,
            seed,
            error: Some(why.into()),
            panics: vec![],
            faults: vec![],
            left: vec![],
            entries: 0,
            at: Moment::default(),
            trace: None,
            unwritten: None,
        }
    }

    /// How the run ended; what is left of it is dropped.
    pub(crate) fn of(run: &Run, number: u32, seed: u64) -> Ended {
        let (outcome, left, entries, unwritten, goroutines) = {
            let state = &mut *run.lock();
            run.end(state);
            let outcome = match number {
                outcome::MAIN_ENDED => Outcome::MainEnded,
                outcome::ALL_ASLEEP => Outcome::Deadlock,
                _ if state.is_unwritten() => Outcome::Unwritten,
                _ => Outcome::Full,
            };
            let (left, entries, unwritten) = (left_of(state, outcome), state.entries(), state.finish());
            let none = state.goroutines.iter().map(|_| Goroutine::default()).collect();
            (outcome, left, entries, unwritten, std::mem::replace(&mut state.goroutines, none))
        };
        let at = Moment(run.clock.now());
        for goroutine in goroutines {
            // A panic of what is dropped only now is told by nobody but the hook.
            let _ = catch_unwind(AssertUnwindSafe(|| drop(goroutine)));
        }
        let (panics, faults) =
            (std::mem::take(&mut *locked(&run.panics)), std::mem::take(&mut *locked(&run.faults)));
        Ended { outcome, seed, error: None, panics, faults, left, entries, at, trace: None, unwritten }
    }

    /// Who was left waiting for good when main ended.
    ///
    /// ```
    /// use kuvendyra::{channel, go, sim, yield_now};
    ///
    /// let ended = sim::run(0, || async {
    ///     let (tx, rx) = channel::<u8>(0).unwrap();
    ///     go(async move { rx.recv().await });
    ///     yield_now().await;
    ///     std::mem::forget(tx);
    /// });
    /// assert!(ended.leaks().count() <= 1);
    /// ```
    pub fn leaks(&self) -> impl Iterator<Item = &Left> {
        let main_ended = self.outcome == Outcome::MainEnded;
        self.left.iter().filter(move |left| main_ended && left.is_stuck)
    }

    /// Whether main ended and answered no error, nobody panicked or was told a fault, nobody was left waiting for good, and the
    /// trace was written, if it should have been.
    ///
    /// ```
    /// use kuvendyra::Runtime;
    ///
    /// assert!(Runtime::builder().block_on(async {}).is_clean());
    /// ```
    pub fn is_clean(&self) -> bool {
        self.outcome == Outcome::MainEnded
            && self.error.is_none()
            && self.unwritten.is_none()
            && self.panics.is_empty()
            && self.faults.is_empty()
            && self.leaks().next().is_none()
    }
}

impl fmt::Display for Ended {
    fn fmt(&self, f: &mut fmt::Formatter<'_>) -> fmt::Result {
        let outcome = match self.outcome {
            Outcome::MainEnded => "main ended",
            Outcome::Deadlock => "all goroutines are asleep",
            Outcome::Full => "the history is full",
            Outcome::Unwritten => "the trace could not be written",
            Outcome::Refused => "refused",
        };
        write!(f, "{outcome}, after {} entries, at {}", self.entries, self.at)?;
        if let Some(error) = &self.error {
            write!(f, "\nmain: {error}")?;
        }
        if let Some(why) = &self.unwritten {
            write!(f, "\ntrace: {why}")?;
        }
        for Panicked { goroutine, message } in &self.panics {
            write!(f, "\ngoroutine {goroutine}: panicked: {message}")?;
        }
        for Told { goroutine, fault } in &self.faults {
            write!(f, "\ngoroutine {goroutine}: fault: {fault}")?;
        }
        self.left.iter().try_for_each(|left| write!(f, "\n{left}"))
    }
}

impl fmt::Display for Left {
    fn fmt(&self, f: &mut fmt::Formatter<'_>) -> fmt::Result {
        let Left { goroutine, what, place, .. } = self;
        match &self.started {
            Some(started) => write!(f, "goroutine {goroutine}, started at {started}")?,
            None => write!(f, "main")?,
        }
        write!(f, ": {what}")?;
        if let Some(besides) = &self.besides {
            write!(f, ": {besides}")?;
        }
        let rest = if self.is_stuck { "" } else { ", and may go on" };
        write!(f, ", at {place}{rest}")
    }
}

/// Who has not ended.
fn left_of(state: &mut State, outcome: Outcome) -> Vec<Left> {
    let mut left = vec![];
    for (g, goroutine) in state.goroutines.iter().enumerate() {
        let Some(wait) = &goroutine.wait else { continue };
        let waits = state.core.status(g as u16) == status::WAITING;
        let what = state.core.status_text(g as u16);
        left.push(Left {
            goroutine: g as u32,
            started: goroutine.place.map(text_of),
            what: what.unwrap_or_else(|| "there is no memory to tell what it does".into()),
            besides: wait.besides(waits),
            place: text_of(wait.place),
            is_stuck: outcome == Outcome::Deadlock || waits && !wait.has_deadline(),
        });
    }
    left
}

/// The text of a place.
pub(crate) fn text_of(place: Place) -> String {
    format!("{}:{}", place.file(), place.line())
}

impl Offer {
    /// What the scheduler doesn't say of the wait, or of what follows it.
    fn besides(&self, waits: bool) -> Option<String> {
        match self.aim {
            Some(Aim::End(g)) => Some(format!("the end of goroutine {g}")),
            Some(Aim::Other) => Some("a future that is none of this crate".into()),
            None if waits && self.ask.kind == ask::SELECT => cases_text(&self.cases),
            None => None,
        }
    }
}

/// What the cases would do, in the words of `gmp explain`. On nil none ever does anything.
fn cases_text(cases: &[Case]) -> Option<String> {
    let named = cases.iter().enumerate().filter(|(_, case)| case.channel != NIL);
    let texts = named.map(|(i, &Case { sends, channel, value })| match sends {
        true => format!("case {i} would send {value} on channel {channel}"),
        false => format!("case {i} would receive from channel {channel}"),
    });
    let texts: Vec<String> = texts.collect();
    (!texts.is_empty()).then(|| texts.join(", "))
}
