//! What a thread does for a run: which goroutine it polls, what that asks, and what it is told.
use crate::ended::Told;
use crate::fault::Fault;
use crate::run::{locked, Goroutine, Offer, Part, Place, Run, State};
use crate::words::{ask, Ask, Case, Event};
use std::cell::{Cell, RefCell};
use std::future::Future;
use std::pin::Pin;
use std::rc::Rc;
use std::sync::Arc;
use std::task::{Context, Poll};

pub(crate) struct Hand {
    pub run: Arc<Run>,
    /// The machine and the goroutine that is polled.
    at: Cell<Option<(u8, u32)>>,
    offer: RefCell<Option<Box<Offer>>>,
    /// How many asks that wait were begun.
    begun: Cell<u64>,
    /// The answer, until it is taken, with the ask's number.
    answer: Cell<Option<(u64, Event)>>,
    /// The thread's hand of the run that this one is within.
    outer: Option<Rc<Hand>>,
}

thread_local! {
    static HAND: RefCell<Option<Rc<Hand>>> = const { RefCell::new(None) };
}

/// While it lives the hand is the thread's.
pub(crate) struct Entered(pub Rc<Hand>);

impl Drop for Entered {
    fn drop(&mut self) {
        let outer = self.0.outer.clone();
        let _ = HAND.try_with(|hand| hand.replace(outer));
    }
}

impl Hand {
    pub fn enter(run: &Arc<Run>) -> Entered {
        let run = run.clone();
        let (at, offer, answer) = (Cell::new(None), RefCell::new(None), Cell::new(None));
        let begun = Cell::new(0);
        HAND.with(|place| {
            let outer = place.borrow().clone();
            let hand = Rc::new(Hand { run, at, offer, begun, answer, outer });
            place.replace(Some(hand.clone()));
            Entered(hand)
        })
    }

    fn top() -> Option<Rc<Hand>> {
        HAND.try_with(|hand| hand.borrow().clone()).ok()?
    }

    /// The thread's hand, if it polls a goroutine.
    pub fn polling() -> Option<Rc<Hand>> {
        Hand::top().filter(|hand| hand.at.get().is_some())
    }

    /// The thread's hand.
    #[track_caller]
    pub fn current() -> Rc<Hand> {
        Hand::polling().expect("outside of a run: only a goroutine may call this")
    }

    /// The thread's hand of the run of this number, if it polls a goroutine of it.
    pub fn of(run: u64) -> Option<Rc<Hand>> {
        let mut hand = Hand::top();
        while let Some(one) = hand {
            if one.run.number == run {
                return Some(one).filter(|hand| hand.at.get().is_some());
            }
            hand = one.outer.clone();
        }
        None
    }

    pub fn at(&self) -> Option<(u8, u32)> {
        self.at.get()
    }

    /// Begins to poll a goroutine, told this of the ask of that number.
    pub fn take_up(&self, m: u8, g: u32, answer: Option<(u64, Event)>) {
        self.at.set(Some((m, g)));
        self.answer.set(answer);
    }

    /// The goroutine isn't polled any more.
    pub fn lay_down(&self) {
        self.at.set(None);
    }

    /// The answer that nobody took.
    pub fn taken_answer(&self) -> Option<Event> {
        self.answer.take().map(|(_, event)| event)
    }

    /// What the goroutine that was polled asks.
    pub fn taken_offer(&self) -> Option<Box<Offer>> {
        self.offer.take()
    }

    /// Makes an ask that never waits for the goroutine that is polled. A fault is noted.
    pub fn ask_now(&self, ask: Ask, cases: &[Case]) -> Result<Event, Fault> {
        self.ask_unnoted(ask, cases).map_err(|fault| self.note(fault))
    }

    /// The same, but that a fault isn't noted.
    pub fn ask_unnoted(&self, ask: Ask, cases: &[Case]) -> Result<Event, Fault> {
        self.ask_then(ask, cases, |_, event| event)
    }

    /// The same; what follows is done before another thread sees what the ask has changed.
    pub fn ask_then<R>(
        &self,
        ask: Ask,
        cases: &[Case],
        then: impl FnOnce(&mut State, Event) -> R,
    ) -> Result<R, Fault> {
        let (m, _) = self.at.get().ok_or(Fault::Over)?;
        let state = &mut *self.run.lock();
        let event = self.run.asked(state, m, ask, cases)?;
        Ok(then(state, event))
    }

    /// Notes that the goroutine that is polled was told this.
    pub fn note(&self, fault: Fault) -> Fault {
        let (_, goroutine) = self.at.get().unwrap_or_default();
        if fault.is_told() {
            locked(&self.run.faults).push(Told { goroutine, fault });
        }
        fault
    }

    /// Starts a goroutine.
    pub fn spawn(&self, goroutine: Goroutine) -> Result<u32, Fault> {
        let begun = self.ask_then(Ask::of(ask::SPAWN), &[], |state, _| {
            let g = state.free.pop_first().expect("the scheduler started one that was free");
            state.goroutines[g as usize] = goroutine;
            g
        });
        begun.map_err(|fault| self.note(fault))
    }
}

/// The only leaf future: an ask, and then its answer.
pub(crate) struct Asking(Stage);

enum Stage {
    New(Box<Offer>),
    Waits(Waiter),
    Told,
}

/// The run by its number, the goroutine that waits, and the ask's number.
#[derive(Clone, Copy)]
struct Waiter {
    run: u64,
    goroutine: u32,
    id: u64,
}

impl Asking {
    pub fn new(offer: impl Into<Box<Offer>>) -> Asking {
        Asking(Stage::New(offer.into()))
    }

    /// An ask of nobody's channel.
    pub fn of(ask: Ask, place: Place) -> Asking {
        Asking::new(Offer::of(ask, place))
    }

    /// Who waits by which ask, once it does.
    pub fn waiter(&self) -> Option<(u32, u64)> {
        match &self.0 {
            Stage::Waits(waiter) => Some((waiter.goroutine, waiter.id)),
            _ => None,
        }
    }

    fn begin(&mut self, mut offer: Box<Offer>) {
        let hand = Hand::current();
        let (m, goroutine) = hand.at.get().unwrap_or_default();
        hand.begun.set(hand.begun.get() + 1);
        // No other thread has the machine, so no other ask of the run has the number.
        offer.id = hand.begun.get() << 6 | u64::from(m);
        self.0 = Stage::Waits(Waiter { run: hand.run.number, goroutine, id: offer.id });
        let before = hand.offer.replace(Some(offer));
        assert!(before.is_none(), "a goroutine waits for one thing at a time: use Select");
    }
}

impl Future for Asking {
    type Output = Event;

    fn poll(mut self: Pin<&mut Self>, _: &mut Context<'_>) -> Poll<Event> {
        match std::mem::replace(&mut self.0, Stage::Told) {
            Stage::New(offer) => {
                self.begin(offer);
                Poll::Pending
            }
            Stage::Waits(waiter) => {
                let hand = Hand::of(waiter.run);
                let mine = hand.filter(|hand| hand.at.get().is_some_and(|(_, g)| g == waiter.goroutine));
                let hand = mine.expect("a future that waits belongs to the goroutine that polled it first");
                match hand.answer.get() {
                    Some((id, event)) if id == waiter.id => {
                        hand.answer.set(None);
                        Poll::Ready(event)
                    }
                    _ => {
                        self.0 = Stage::Waits(waiter);
                        Poll::Pending
                    }
                }
            }
            Stage::Told => panic!("polled again after its end"),
        }
    }
}

impl Drop for Asking {
    /// What is not yet with the scheduler is taken back.
    fn drop(&mut self) {
        let Stage::Waits(waiter) = &self.0 else { return };
        let Some(hand) = Hand::of(waiter.run) else { return };
        let mine = hand.offer.borrow_mut().take_if(|offer| offer.id == waiter.id);
        for Part { held, key } in mine.into_iter().flat_map(|offer| offer.parts) {
            if let Some(key) = key {
                held.discard(key);
            }
        }
    }
}
