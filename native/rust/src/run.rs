//! The run under way: the scheduler, and what the host keeps beside it.
use crate::ended::{Panicked, Told};
use crate::fault::Fault;
use crate::hand::Hand;
use crate::parts::Written;
use crate::random::Random;
use crate::time::Clock;
use crate::words::{ask, event, woke, Ask, Case, Event, Limits, NEVER};
use crate::Core;
use std::collections::{BTreeMap, BTreeSet};
use std::future::Future;
use std::panic::Location;
use std::pin::Pin;
use std::sync::atomic::{AtomicBool, AtomicU64, Ordering};
use std::sync::{Arc, Condvar, Mutex, MutexGuard, PoisonError, Weak};
use std::task::{Wake, Waker};

pub(crate) type Body = Pin<Box<dyn Future<Output = ()> + Send>>;
pub(crate) type Job = Box<dyn FnOnce() + Send>;
pub(crate) type Place = &'static Location<'static>;

/// A turn makes so many entries at most.
const TURN_ENTRIES: u64 = 4096;

/// How many runs there were.
static RUNS: AtomicU64 = AtomicU64::new(0);

/// The close of a channel that is told to the scheduler later.
pub(crate) const LATER: u64 = u64::MAX;

/// The end of a channel that the run holds while a goroutine waits at it.
pub(crate) trait Held: Send + Sync {
    /// Drops the value of this key, which nobody will receive.
    fn discard(&self, key: u64);
}

/// What a goroutine waits for that the scheduler doesn't know of.
#[derive(Clone, Copy)]
pub(crate) enum Aim {
    /// The end of the goroutine of this number.
    End(u32),
    /// A future of another crate.
    Other,
}

/// One part of a wait: the channel, and the key of the value that would be sent.
pub(crate) struct Part {
    pub held: Arc<dyn Held>,
    pub key: Option<u64>,
}

/// An ask, with what the host keeps of it until it is answered.
pub(crate) struct Offer {
    pub id: u64,
    pub ask: Ask,
    pub cases: Vec<Case>,
    pub aim: Option<Aim>,
    pub place: Place,
    pub parts: Vec<Part>,
    pub job: Option<Job>,
}

impl Offer {
    /// An ask of nobody's channel.
    pub fn of(ask: Ask, place: Place) -> Offer {
        Offer { id: 0, ask, cases: vec![], aim: None, place, parts: vec![], job: None }
    }

    /// The same, of one that waits for this.
    pub fn to(self, aim: Aim) -> Offer {
        Offer { aim: Some(aim), ..self }
    }

    /// Whether a deadline ends the wait.
    pub fn has_deadline(&self) -> bool {
        match self.ask.kind {
            ask::SLEEP => true,
            ask::SELECT => self.ask.value != NEVER,
            _ => false,
        }
    }
}

/// Who is told that a goroutine ended by a panic.
pub(crate) trait Ends: Send + Sync {
    fn panicked(&self, message: &str);
}

/// The waker of a goroutine, for futures of other crates.
pub(crate) struct Bell {
    run: Weak<Run>,
    rung: AtomicBool,
}

impl Bell {
    pub fn is_rung(&self) -> bool {
        self.rung.load(Ordering::SeqCst)
    }

    pub fn silence(&self) {
        if self.is_rung() {
            self.rung.store(false, Ordering::SeqCst);
        }
    }
}

impl Wake for Bell {
    fn wake(self: Arc<Self>) {
        self.rung.store(true, Ordering::SeqCst);
        if let Some(run) = self.run.upgrade() {
            run.wake_callers();
        }
    }
}

/// A goroutine.
#[derive(Default)]
pub(crate) struct Goroutine {
    pub body: Option<Body>,
    pub place: Option<Place>,
    pub ends: Option<Arc<dyn Ends>>,
    /// Its bell, and the waker that rings it.
    pub bell: Option<(Arc<Bell>, Waker)>,
    /// What it asked, until it is answered.
    pub wait: Option<Box<Offer>>,
    /// The number of its last ask that was readied before it came to the scheduler.
    pub readied: u64,
}

/// The numbers of channels: those made, and of those that can be used again the ones of each capacity.
#[derive(Default)]
pub(crate) struct Numbers {
    pub made: u16,
    pub free: BTreeMap<u32, Vec<u32>>,
}

/// What one thread at a time looks at. No value or future of a user is dropped or polled under its lock.
pub(crate) struct State {
    pub core: Core,
    words: Random,
    pub goroutines: Vec<Goroutine>,
    /// The numbers of goroutines that were not started or have ended. A spawn starts the least of them, as is proved.
    pub free: BTreeSet<u32>,
    /// How many channels were closed.
    pub closes: u64,
    /// The closes that the goroutine that is polled next makes: channels whose last sender went outside of one.
    pub late_closes: Vec<(u32, Arc<AtomicU64>)>,
    handed_out: u64,
    /// The trace, if it is written in parts.
    pub written: Option<Written>,
    /// The machines that are parked.
    pub parked: u64,
    /// The machines whose threads wait for a moment.
    pub waiting: u64,
    /// The machines whose threads wait for a call to end.
    pub calling: u64,
}

pub(crate) struct Run {
    /// No other run has this number.
    pub number: u64,
    pub limits: Limits,
    pub clock: Clock,
    state: Mutex<State>,
    /// For each machine that has a thread what wakes it. The first is that of a run of one thread.
    pub bells: Vec<Condvar>,
    pub numbers: Mutex<Numbers>,
    pub faults: Mutex<Vec<Told>>,
    pub panics: Mutex<Vec<Panicked>>,
    /// Set once no ask is answered any more.
    over: AtomicBool,
}

/// What a blocking call is: a job, else a wait until the bell is rung.
pub(crate) type Called = (Option<Job>, Option<Arc<Bell>>);

/// The lock of what one thread at a time looks at. A panic under it leaves nothing half done.
pub(crate) fn locked<T: ?Sized>(mutex: &Mutex<T>) -> MutexGuard<'_, T> {
    mutex.lock().unwrap_or_else(PoisonError::into_inner)
}

impl State {
    /// Makes room for one turn, where the history isn't kept whole. False, if what went out could not be written.
    fn make_room(&mut self, limits: &Limits) -> bool {
        let room = u64::from(limits.room);
        if limits.entries > room && self.core.entries() + TURN_ENTRIES > room {
            self.hand_out();
        }
        !self.is_unwritten()
    }

    /// Hands the history out, and writes it, if the trace is written. Answers whether there was memory to hand it out.
    fn hand_out(&mut self) -> bool {
        let is_out = self.core.hand_out();
        if is_out {
            self.handed_out += self.core.piece_len();
            if let Some(written) = &mut self.written {
                written.piece(&mut self.core);
            }
        }
        is_out
    }

    /// Whether a part of the trace could not be written.
    pub fn is_unwritten(&self) -> bool {
        self.written.as_ref().is_some_and(Written::has_failed)
    }

    /// Writes what is left, if the trace is written. Answers why it could not be written, if it could not.
    pub fn finish(&mut self) -> Option<String> {
        self.written.as_ref()?;
        let is_out = self.is_unwritten() || self.core.entries() == 0 || self.hand_out();
        self.written.take()?.end(is_out)
    }

    /// The blocking call of the goroutine.
    pub fn called(&mut self, g: u32) -> Called {
        let Goroutine { wait, bell, .. } = &mut self.goroutines[g as usize];
        let job = wait.as_mut().and_then(|wait| wait.job.take());
        (job, bell.as_ref().map(|(bell, _)| bell.clone()))
    }

    /// How many entries the run has.
    pub fn entries(&mut self) -> u64 {
        self.handed_out + self.core.entries()
    }
}

impl Run {
    pub fn new(
        core: Core,
        limits: Limits,
        goroutines: u16,
        clock: Clock,
        words: Random,
        threads: u8,
    ) -> Arc<Run> {
        let state = State {
            core,
            words,
            goroutines: (0..goroutines).map(|_| Goroutine::default()).collect(),
            free: (1..goroutines.into()).collect(),
            closes: 0,
            late_closes: vec![],
            handed_out: 0,
            written: None,
            parked: 0,
            waiting: 0,
            calling: 0,
        };
        Arc::new(Run {
            limits,
            clock,
            state: Mutex::new(state),
            bells: (0..threads).map(|_| Condvar::new()).collect(),
            number: RUNS.fetch_add(1, Ordering::Relaxed),
            numbers: Mutex::default(),
            faults: Mutex::default(),
            panics: Mutex::default(),
            over: AtomicBool::new(false),
        })
    }

    pub fn lock(&self) -> MutexGuard<'_, State> {
        locked(&self.state)
    }

    pub fn is_over(&self) -> bool {
        self.over.load(Ordering::SeqCst)
    }

    /// No ask is answered from now on, and all machines are woken.
    pub fn end(&self, _: &mut State) {
        self.over.store(true, Ordering::SeqCst);
        self.bells.iter().for_each(Condvar::notify_all);
    }

    pub fn new_bell(self: &Arc<Run>) -> (Arc<Bell>, Waker) {
        let bell = Arc::new(Bell { run: Arc::downgrade(self), rung: AtomicBool::new(false) });
        (bell.clone(), Waker::from(bell))
    }

    /// Wakes the threads of this set of machines.
    fn wake(&self, set: u64) {
        for (m, bell) in self.bells.iter().enumerate() {
            if set >> m & 1 == 1 {
                bell.notify_all();
            }
        }
    }

    /// Lets those look round that wait for a call to end.
    pub fn wake_callers(&self) {
        let calling = self.lock().calling;
        self.wake(calling);
    }

    /// One turn of the machine. The threads of machines that it lets go on are woken.
    pub fn turn(&self, state: &mut State, m: u8, ask: &Ask, cases: &[Case]) -> Event {
        if !state.make_room(&self.limits) {
            self.end(state);
            return Event { kind: event::DONE, ..Event::default() };
        }
        let word = state.words.next();
        let event = state.core.turn(m, ask, cases, self.clock.now(), word);
        let before = std::mem::replace(&mut state.parked, state.core.parked());
        let mut woken = before & !state.parked;
        if ask.kind != ask::NONE || event.kind == event::RESUME {
            // One that waits for a moment looks round; if it finds something, it wakes the next.
            let others = state.waiting & !(1 << m);
            woken |= others & others.wrapping_neg();
            state.waiting &= !woken;
        }
        if woken != 0 && self.bells.len() > 1 {
            self.wake(woken);
        }
        event
    }

    /// Makes an ask that never waits, for the goroutine that the machine has polled.
    pub fn asked(&self, state: &mut State, m: u8, ask: Ask, cases: &[Case]) -> Result<Event, Fault> {
        let (mut ask, mut cases) = (ask, cases);
        while !self.is_over() {
            let event = self.turn(state, m, &ask, cases);
            match event.kind {
                event::RESUME => return judged(event),
                event::MORE => (ask, cases) = (Ask::NONE, &[]),
                _ => self.end(state),
            }
        }
        Err(Fault::Over)
    }

    /// Closes the channel. Outside of a goroutine it is the one that is polled next that does so.
    pub fn close(&self, number: u32, mark: &Arc<AtomicU64>) -> Result<(), Fault> {
        if let Some(hand) = Hand::of(self.number) {
            return hand.ask_then(Ask::on(ask::CLOSE, number, 0), &[], |state, _| {
                state.closes += 1;
                mark.store(state.closes, Ordering::SeqCst);
            });
        }
        if self.is_over() {
            return Err(Fault::Over);
        }
        mark.store(LATER, Ordering::SeqCst);
        self.lock().late_closes.push((number, mark.clone()));
        Ok(())
    }

    /// Notes the panic, and tells whoever waits for the goroutine. What comes behind the end of the run isn't noted.
    pub fn panicked(&self, goroutine: u32, message: String) {
        // Main may end as soon as it is told.
        if !self.is_over() {
            locked(&self.panics).push(Panicked { goroutine, message: message.clone() });
        }
        let ends = self.lock().goroutines[goroutine as usize].ends.clone();
        if let Some(ends) = ends {
            ends.panicked(&message);
        }
    }

    /// Readies the goroutine that waits by the ask of this number, or is about to.
    pub fn ready(&self, (g, id): (u32, u64)) {
        let Some((m, _)) = Hand::of(self.number).and_then(|hand| hand.at()) else { return };
        let state = &mut *self.lock();
        let goroutine = &mut state.goroutines[g as usize];
        match &goroutine.wait {
            Some(wait) if wait.id == id => {
                let _ = self.asked(state, m, Ask::with(ask::READY, g.into()), &[]);
            }
            _ => goroutine.readied = id,
        }
    }
}

/// The answer, if it is no fault.
fn judged(event: Event) -> Result<Event, Fault> {
    match event.woke {
        woke::FAULT => Err(Fault::of(event.value)),
        woke::NO_MEMORY => Err(Fault::NoMemory),
        _ => Ok(event),
    }
}
