//! Several channel operations of which one proceeds.
use crate::ends::{Receiver, Sender};
use crate::fault::{Fault, SendError};
use crate::hand::{Asking, Hand};
use crate::run::{Offer, Part, Place};
use crate::time::Moment;
use crate::words::{ask, woke, Ask, Case, Event, MAX_CASES, NEVER, NIL};
use std::future::Future;
use std::panic::Location;

/// What comes of a case.
enum Comes<'e> {
    Chosen(&'e Event),
    /// It is a send that nobody can receive any more.
    Refused,
    Left,
}

/// A case, with what is done where it is chosen.
trait Arm<R> {
    /// What the scheduler is offered.
    fn begin(&mut self) -> (Case, Part);
    /// Takes back what was offered.
    fn back(&mut self);
    /// Which close of the run was that of the channel, if it is a send.
    fn closed_as(&self) -> Option<u64>;
    /// Whether it is a send whose receivers are gone.
    fn is_refused(&self) -> bool;
    fn end(self: Box<Self>, comes: Comes<'_>) -> Option<R>;
}

struct RecvArm<'a, T, F> {
    rx: &'a Receiver<T>,
    then: F,
}

impl<R, T: Send + 'static, F: FnOnce(Option<T>) -> R> Arm<R> for RecvArm<'_, T, F> {
    fn begin(&mut self) -> (Case, Part) {
        self.rx.0.case(None)
    }

    fn back(&mut self) {}

    fn closed_as(&self) -> Option<u64> {
        None
    }

    fn is_refused(&self) -> bool {
        false
    }

    fn end(self: Box<Self>, comes: Comes<'_>) -> Option<R> {
        match comes {
            Comes::Chosen(event) => Some((self.then)(self.rx.0.received(event))),
            _ => None,
        }
    }
}

/// Where the value of a send comes from, and goes back to.
enum Source<'a, T> {
    Owned(Option<T>),
    Lent(&'a mut Option<T>),
}

impl<T> Source<'_, T> {
    fn place(&mut self) -> &mut Option<T> {
        match self {
            Source::Owned(value) => value,
            Source::Lent(value) => value,
        }
    }
}

struct SendArm<'a, T, F> {
    tx: &'a Sender<T>,
    value: Source<'a, T>,
    key: Option<u64>,
    then: F,
}

impl<R, T: Send + 'static, F: FnOnce(Result<(), SendError<T>>) -> R> Arm<R> for SendArm<'_, T, F> {
    fn begin(&mut self) -> (Case, Part) {
        match self.value.place().take().map(|value| self.tx.0.put(value)) {
            Some(Ok(key)) => self.key = Some(key),
            Some(Err(error)) => *self.value.place() = Some(error.value),
            None => {}
        }
        let (mut case, part) = self.tx.0.case(self.key);
        if self.key.is_none() {
            case = Case { sends: true, channel: NIL, value: 0 };
        }
        (case, part)
    }

    fn back(&mut self) {
        if let Some(key) = self.key.take() {
            *self.value.place() = self.tx.0.take(key);
        }
    }

    fn closed_as(&self) -> Option<u64> {
        self.key.and(self.tx.0.closed_as())
    }

    fn is_refused(&self) -> bool {
        self.tx.0.has_no_receiver()
    }

    fn end(mut self: Box<Self>, comes: Comes<'_>) -> Option<R> {
        match (comes, self.key) {
            (Comes::Chosen(event), Some(key)) => Some((self.then)(self.tx.0.sent(key, event))),
            (Comes::Left, _) => {
                self.back();
                None
            }
            (Comes::Refused, None) => {
                let value = self.value.place().take()?;
                Some((self.then)(Err(SendError { value, fault: Fault::NoReceiver })))
            }
            _ => None,
        }
    }
}

type Then<'a, R> = Box<dyn FnOnce() -> R + Send + 'a>;

/// Several channel operations of which one proceeds; each has a closure for what comes of it, and the select answers
/// what that answers. It is for 8 cases at most, and it may have a default, or a deadline.
///
/// Of the cases that can proceed, the scheduler takes one by a word that the run draws.
///
/// ```
/// use kuvendyra::{channel, go, Runtime, Select};
///
/// let ended = Runtime::builder().block_on(async {
///     let (numbers, from_numbers) = channel::<u32>(0).unwrap();
///     let (words, from_words) = channel::<&str>(0).unwrap();
///     go(async move { numbers.send(7).await });
///     let text = Select::new()
///         .recv(&from_numbers, |got| format!("a number: {got:?}"))
///         .recv(&from_words, |got| format!("a word: {got:?}"))
///         .wait()
///         .await;
///     assert_eq!(text, "a number: Some(7)");
///     drop(words);
/// });
/// assert!(ended.panics.is_empty(), "{ended}");
/// ```
pub struct Select<'a, R> {
    arms: Vec<Box<dyn Arm<R> + Send + 'a>>,
    default: Option<Then<'a, R>>,
    until: Option<(Moment, Then<'a, R>)>,
}

impl<'a, R: 'a> Select<'a, R> {
    /// A select with no case. With nothing more it waits for good.
    ///
    /// ```
    /// use kuvendyra::{sim, Outcome, Select};
    ///
    /// let ended = sim::run(0, || async { Select::<()>::new().wait().await });
    /// assert_eq!(ended.outcome, Outcome::Deadlock);
    /// ```
    #[allow(clippy::new_without_default)]
    pub fn new() -> Self {
        Select { arms: vec![], default: None, until: None }
    }

    #[track_caller]
    fn with(mut self, arm: impl Arm<R> + Send + 'a) -> Self {
        assert!(self.arms.len() < MAX_CASES, "a select has 8 cases at most");
        self.arms.push(Box::new(arm));
        self
    }

    /// One more case: to receive. The closure gets `None` where the channel is closed and empty.
    ///
    /// # Panics
    ///
    /// If it is the ninth case.
    ///
    /// ```
    /// use kuvendyra::{channel, Runtime, Select};
    ///
    /// let ended = Runtime::builder().block_on(async {
    ///     let (tx, rx) = channel::<u8>(1).unwrap();
    ///     drop(tx);
    ///     assert_eq!(Select::new().recv(&rx, |got| got).wait().await, None);
    /// });
    /// assert!(ended.panics.is_empty(), "{ended}");
    /// ```
    #[track_caller]
    pub fn recv<T: Send + 'static>(
        self,
        rx: &'a Receiver<T>,
        then: impl FnOnce(Option<T>) -> R + Send + 'a,
    ) -> Self {
        self.with(RecvArm { rx, then })
    }

    /// One more case: to send the value. If another case is chosen, the value is dropped; [`Select::send_from`] keeps it.
    /// A send whose receivers are gone is chosen at once.
    ///
    /// # Panics
    ///
    /// If it is the ninth case.
    ///
    /// ```
    /// use kuvendyra::{channel, Runtime, Select};
    ///
    /// let ended = Runtime::builder().block_on(async {
    ///     let (tx, rx) = channel(1).unwrap();
    ///     assert!(Select::new().send(&tx, 5, |sent| sent.is_ok()).wait().await);
    ///     assert_eq!(rx.recv().await, Some(5));
    /// });
    /// assert!(ended.panics.is_empty(), "{ended}");
    /// ```
    #[track_caller]
    pub fn send<T: Send + 'static>(
        self,
        tx: &'a Sender<T>,
        value: T,
        then: impl FnOnce(Result<(), SendError<T>>) -> R + Send + 'a,
    ) -> Self {
        let value = Source::Owned(Some(value));
        self.with(SendArm { tx, value, key: None, then })
    }

    /// One more case: to send the value that is there. It is there again if another case is chosen. Where there is none
    /// the case never proceeds.
    ///
    /// # Panics
    ///
    /// If it is the ninth case.
    ///
    /// ```
    /// use kuvendyra::{channel, Runtime, Select};
    ///
    /// let ended = Runtime::builder().block_on(async {
    ///     let (tx, _rx) = channel(0).unwrap();
    ///     let mut value = Some(5);
    ///     let sent = Select::new().send_from(&tx, &mut value, |_| true).or_default(|| false).wait().await;
    ///     assert_eq!((sent, value), (false, Some(5)));
    /// });
    /// assert!(ended.panics.is_empty(), "{ended}");
    /// ```
    #[track_caller]
    pub fn send_from<T: Send + 'static>(
        self,
        tx: &'a Sender<T>,
        value: &'a mut Option<T>,
        then: impl FnOnce(Result<(), SendError<T>>) -> R + Send + 'a,
    ) -> Self {
        let value = Source::Lent(value);
        self.with(SendArm { tx, value, key: None, then })
    }

    /// What is done where no case can proceed now. It never waits then, and a deadline has no effect.
    ///
    /// ```
    /// use kuvendyra::{channel, Runtime, Select};
    ///
    /// let ended = Runtime::builder().block_on(async {
    ///     let (_tx, rx) = channel::<u8>(0).unwrap();
    ///     assert_eq!(Select::new().recv(&rx, |_| 1).or_default(|| 2).wait().await, 2);
    /// });
    /// assert!(ended.panics.is_empty(), "{ended}");
    /// ```
    pub fn or_default(mut self, then: impl FnOnce() -> R + Send + 'a) -> Self {
        self.default = Some(Box::new(then));
        self
    }

    /// What is done where no case has proceeded until the moment.
    ///
    /// ```
    /// use kuvendyra::{channel, now, sim, Select};
    /// use std::time::Duration;
    ///
    /// let ended = sim::run(0, || async {
    ///     let (_tx, rx) = channel::<u8>(0).unwrap();
    ///     let late = now() + Duration::from_secs(5);
    ///     assert_eq!(Select::new().recv(&rx, |_| 1).until(late, || 2).wait().await, 2);
    ///     assert_eq!(now(), late);
    /// });
    /// assert!(ended.panics.is_empty(), "{ended}");
    /// ```
    pub fn until(mut self, moment: Moment, then: impl FnOnce() -> R + Send + 'a) -> Self {
        self.until = Some((moment, Box::new(then)));
        self
    }

    /// Waits until one of the cases proceeds, and answers what its closure answers.
    ///
    /// ```
    /// use kuvendyra::{channel, Runtime, Select};
    ///
    /// let ended = Runtime::builder().block_on(async {
    ///     let (tx, rx) = channel(1).unwrap();
    ///     tx.send(3).await.unwrap();
    ///     assert_eq!(Select::new().recv(&rx, |got| got).wait().await, Some(3));
    /// });
    /// assert!(ended.panics.is_empty(), "{ended}");
    /// ```
    #[track_caller]
    pub fn wait(mut self) -> impl Future<Output = R> + Send + 'a {
        let place = Location::caller();
        async move {
            let offer = match self.begun(place) {
                Ok(answer) => return answer,
                Err(offer) => offer,
            };
            let event = Asking::new(offer).await;
            self.answer(&event)
        }
    }

    /// What a send answers whose receivers are gone; else what the scheduler is offered.
    fn begun(&mut self, place: Place) -> Result<R, Box<Offer>> {
        loop {
            if let Some(answer) = self.refused() {
                return Ok(answer);
            }
            let offer = self.offer(place);
            if !self.arms.iter().any(|arm| arm.is_refused()) {
                return Err(Box::new(offer));
            }
            // The last receiver went meanwhile, in another thread.
            self.arms.iter_mut().for_each(|arm| arm.back());
        }
    }

    /// What the first send answers whose receivers are gone. One that has no value is no case any more.
    fn refused(&mut self) -> Option<R> {
        while let Some(at) = self.arms.iter().position(|arm| arm.is_refused()) {
            let answer = self.arms.remove(at).end(Comes::Refused);
            if answer.is_some() {
                return answer;
            }
        }
        None
    }

    fn offer(&mut self, place: Place) -> Offer {
        let (cases, parts): (Vec<_>, Vec<_>) = self.arms.iter_mut().map(|arm| arm.begin()).unzip();
        let until = self.until.as_ref().map_or(NEVER, |(moment, _)| moment.0);
        let mut offer = Offer::of(Ask::on(ask::SELECT, self.default.is_some().into(), until), place);
        (offer.cases, offer.parts) = (cases, parts);
        offer
    }

    /// The send whose channel was closed first: the fault is of that one.
    fn first_closed(&self) -> Option<usize> {
        let closed = self.arms.iter().enumerate().filter_map(|(i, arm)| Some((arm.closed_as()?, i)));
        closed.min().map(|(_, i)| i)
    }

    /// What the chosen case answers; the values of the others go back.
    fn answer(self, event: &Event) -> R {
        let at = match event.woke {
            woke::FAULT => self.first_closed(),
            _ => event.chosen().map(|(case, _)| case),
        };
        let mut answer = None;
        for (i, arm) in self.arms.into_iter().enumerate() {
            let comes = if Some(i) == at { Comes::Chosen(event) } else { Comes::Left };
            answer = arm.end(comes).or(answer);
        }
        let other = || match event.woke {
            woke::DEFAULT => self.default.map(|then| then()),
            woke::LATE => self.until.map(|(_, then)| then()),
            _ => None,
        };
        match answer.or_else(other) {
            Some(answer) => answer,
            None => panic!("fault {}", Hand::current().note(Fault::of(event.value))),
        }
    }
}
