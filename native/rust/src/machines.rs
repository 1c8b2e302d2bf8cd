//! The loop that lets machines act, in one thread.
use crate::hand::Hand;
use crate::polls::Polled;
use crate::random::Random;
use crate::run::{Bell, Called, Job, Run};
use crate::time::Clock;
use crate::words::{ask, event, outcome, Ask, Event, NEVER};
use std::rc::Rc;
use std::sync::atomic::{AtomicBool, Ordering};
use std::sync::Arc;
use std::time::Duration;

/// A machine that isn't drawn goes on for so many turns, if others can act too.
const TURNS: u32 = 64;

/// Where a machine stands between its turns.
enum Station {
    Go,
    Resume(Event),
    Parked,
    /// There is nothing to do before this moment.
    Waits(u64),
    Calls(Call),
    Done,
}

/// A blocking call of a machine.
enum Call {
    /// A simulation does the job at the machine's next turn.
    Job(Job),
    /// Another thread says when it is done.
    Out(Arc<AtomicBool>),
    /// A future of another crate has to ring.
    Woken(Arc<Bell>),
    Answered,
}

impl Call {
    fn is_over(&self) -> bool {
        match self {
            Call::Job(_) | Call::Answered => true,
            Call::Out(done) => done.load(Ordering::SeqCst),
            Call::Woken(bell) => bell.is_rung(),
        }
    }
}

pub(crate) struct Machines {
    run: Arc<Run>,
    hand: Rc<Hand>,
    stations: Vec<Station>,
    /// Machines that wait for a moment and have to look round before it.
    stale: u64,
    /// Machines that are parked, and the run's outcome, as of the last turn.
    parked: u64,
    outcome: u32,
    draw: Option<Random>,
    at: u8,
    turns: u32,
}

impl Machines {
    /// All machines; those of a simulation are drawn.
    pub fn new(hand: Rc<Hand>, draw: Option<Random>) -> Machines {
        let run = hand.run.clone();
        Machines {
            stations: (0..run.limits.machines).map(|_| Station::Go).collect(),
            hand,
            run,
            stale: 0,
            parked: 0,
            outcome: outcome::RUNS,
            draw,
            at: 0,
            turns: 0,
        }
    }

    /// Acts until the run is over; answers its outcome by number.
    pub fn run(&mut self) -> u32 {
        while self.outcome == outcome::RUNS && !self.run.is_over() {
            match self.next() {
                Some(m) => self.step(m),
                None if self.rest() => {}
                None => return outcome::ALL_ASLEEP,
            }
        }
        self.run.lock().core.outcome()
    }

    /// The machine that acts next, if one can.
    fn next(&mut self) -> Option<u8> {
        let set = self.runnable();
        let all = self.stations.len() as u8;
        let m = match &mut self.draw {
            _ if set == 0 => return None,
            Some(draw) => {
                let skipped = draw.below(set.count_ones());
                (0..all).filter(|m| set >> m & 1 == 1).nth(skipped as usize)?
            }
            None => {
                self.turns += 1;
                let first = if self.turns.is_multiple_of(TURNS) { self.at + 1 } else { self.at };
                (first..all).chain(0..first).find(|m| set >> m & 1 == 1)?
            }
        };
        self.at = m;
        Some(m)
    }

    /// The set of machines that can act.
    fn runnable(&self) -> u64 {
        let can = |(m, station): (usize, &Station)| {
            let can = match station {
                Station::Go | Station::Resume(_) => true,
                Station::Parked => self.parked >> m & 1 == 0,
                Station::Waits(until) => self.stale >> m & 1 == 1 || *until <= self.run.clock.now(),
                Station::Calls(call) => call.is_over(),
                Station::Done => false,
            };
            u64::from(can) << m
        };
        self.stations.iter().enumerate().map(can).sum()
    }

    /// One turn of the machine, behind the poll or the job that it stands at.
    fn step(&mut self, m: u8) {
        let station = std::mem::replace(&mut self.stations[m as usize], Station::Go);
        let asked = matches!(station, Station::Resume(_) | Station::Calls(_));
        let mut polled = None;
        match station {
            Station::Resume(event) => polled = Some(self.hand.resume(m, event)),
            Station::Calls(Call::Job(job)) => job(),
            _ => {}
        }
        let Some((event, call)) = self.turn(m, polled, asked) else { return };
        self.stale &= !(1 << m);
        if asked && (self.draw.is_some() || event.kind != event::RESUME || self.turns.is_multiple_of(TURNS)) {
            self.stale = !(1 << m);
        }
        self.stations[m as usize] = match event.kind {
            event::MORE => Station::Go,
            event::RESUME => Station::Resume(event),
            event::CALL => Station::Calls(self.call(call)),
            event::WAIT => Station::Waits(event.value),
            event::PARKED => Station::Parked,
            event::DONE => Station::Done,
            _ => {
                self.run.end(&mut self.run.lock());
                Station::Done
            }
        };
    }

    /// Hands in what the machine's goroutine asks; answers the event, and the call, if it is one. None, if the run is over.
    fn turn(&mut self, m: u8, polled: Option<Polled>, asked: bool) -> Option<(Event, Called)> {
        let state = &mut *self.run.lock();
        let (ask, cases) = match polled {
            Some(polled) => state.settle(polled),
            None if asked => (Ask::of(ask::ANSWER), vec![]),
            None => (Ask::NONE, vec![]),
        };
        if self.run.is_over() {
            return None;
        }
        let event = self.run.turn(state, m, &ask, &cases);
        (self.parked, self.outcome) = (state.parked, state.core.outcome());
        let call = if event.kind == event::CALL { state.called(event.goroutine) } else { (None, None) };
        Some((event, call))
    }

    /// Begins the blocking call of a goroutine.
    fn call(&self, (job, bell): Called) -> Call {
        let Some(job) = job else {
            return bell.map_or(Call::Answered, Call::Woken);
        };
        if self.draw.is_some() {
            return Call::Job(job);
        }
        let (run, done) = (Arc::downgrade(&self.run), Arc::new(AtomicBool::new(false)));
        let told = done.clone();
        let thread = std::thread::Builder::new().spawn(move || {
            job();
            told.store(true, Ordering::SeqCst);
            if let Some(run) = run.upgrade() {
                run.wake_callers();
            }
        });
        // Without a thread the job is dropped, which its goroutine is told.
        thread.map_or(Call::Answered, |_| Call::Out(done))
    }

    /// Rests until the next deadline, or until a call is over. Answers whether there is anything to rest for.
    fn rest(&mut self) -> bool {
        let waits = self.stations.iter().filter_map(|station| match station {
            Station::Waits(until) => Some(*until),
            _ => None,
        });
        let until = waits.min();
        let mut calls = self.stations.iter().filter_map(|station| match station {
            Station::Calls(call) => Some(call),
            _ => None,
        });
        match (&self.run.clock, until) {
            (Clock::Virtual(now), Some(until)) => now.store(until, Ordering::SeqCst),
            (Clock::Virtual(_), None) => return false,
            (Clock::Real(_), None) if calls.next().is_none() => return false,
            (Clock::Real(_), _) => {
                let length = until.unwrap_or(NEVER).saturating_sub(self.run.clock.now());
                self.wait(Duration::from_nanos(length).min(Duration::from_secs(3600)));
            }
        }
        true
    }

    /// Waits so long, or until a call is over.
    fn wait(&self, length: Duration) {
        let is_over = |station: &Station| matches!(station, Station::Calls(call) if call.is_over());
        let mut state = self.run.lock();
        state.calling = 1;
        // Who ends a call has the lock behind that, and so comes either before this look or while the thread waits.
        if !self.stations.iter().any(is_over) {
            state = match self.run.bells[0].wait_timeout(state, length) {
                Ok((state, _)) => state,
                Err(poisoned) => poisoned.into_inner().0,
            };
        }
        state.calling = 0;
    }
}
