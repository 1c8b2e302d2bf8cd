//! The loop that lets machines act, each in a thread of its own. The scheduler is behind the lock of the run; bodies and
//! blocking calls run outside of it.
use crate::hand::Hand;
use crate::run::{Run, State};
use crate::words::{ask, event, outcome, Ask, Case, Event};
use std::sync::{Arc, MutexGuard, PoisonError};
use std::thread;
use std::time::Duration;

/// Runs all machines, and joins their threads. Answers the run's outcome by number; none, if a thread was refused.
pub(crate) fn run(run: &Arc<Run>) -> Option<u32> {
    let all = thread::scope(|scope| {
        // Nobody begins before all threads are there.
        let mut state = run.lock();
        for m in 0..run.limits.machines {
            let machine = move || Machine { run, m }.work();
            let thread = thread::Builder::new().name(format!("machine {m}"));
            if thread.spawn_scoped(scope, machine).is_err() {
                run.end(&mut state);
                return false;
            }
        }
        true
    });
    all.then(|| run.lock().core.outcome())
}

struct Machine<'r> {
    run: &'r Arc<Run>,
    m: u8,
}

/// A machine whose thread ends, by whatever, ends the run.
impl Drop for Machine<'_> {
    fn drop(&mut self) {
        self.run.end(&mut self.run.lock());
    }
}

impl<'r> Machine<'r> {
    fn work(&self) {
        let hand = Hand::enter(self.run);
        let mut state = self.run.lock();
        let mut ask: (Ask, Vec<Case>) = (Ask::NONE, vec![]);
        while !self.run.is_over() {
            let event = self.run.turn(&mut state, self.m, &ask.0, &ask.1);
            ask = (Ask::NONE, vec![]);
            match event.kind {
                event::MORE => {}
                event::RESUME => {
                    drop(state);
                    let polled = hand.0.resume(self.m, event);
                    state = self.run.lock();
                    ask = state.settle(polled);
                }
                event::CALL => {
                    state = self.call(state, event);
                    ask.0 = Ask::of(ask::ANSWER);
                }
                _ if state.core.outcome() != outcome::RUNS => return,
                event::PARKED => state = self.park(state),
                event::WAIT => state = self.wait_until(state, event.value),
                _ => return,
            }
        }
    }

    fn set(&self) -> u64 {
        1 << self.m
    }

    /// Sleeps until somebody wakes the machine.
    fn sleep(&self, state: MutexGuard<'r, State>) -> MutexGuard<'r, State> {
        self.run.bells[self.m as usize].wait(state).unwrap_or_else(PoisonError::into_inner)
    }

    /// Makes the blocking call of the goroutine: its job, or the wait until its bell is rung.
    fn call(&self, mut state: MutexGuard<'r, State>, event: Event) -> MutexGuard<'r, State> {
        let (job, bell) = state.called(event.goroutine);
        if let Some(job) = job {
            drop(state);
            job();
            return self.run.lock();
        }
        state.calling |= self.set();
        while !self.run.is_over() && bell.as_ref().is_some_and(|bell| !bell.is_rung()) {
            state = self.sleep(state);
        }
        state.calling &= !self.set();
        state
    }

    /// Sleeps while the machine is parked.
    fn park(&self, mut state: MutexGuard<'r, State>) -> MutexGuard<'r, State> {
        while !self.run.is_over() && state.parked & self.set() != 0 {
            state = self.sleep(state);
        }
        state
    }

    /// Sleeps until the moment, or until another machine has had a turn by which there may be something to do.
    fn wait_until(&self, mut state: MutexGuard<'r, State>, moment: u64) -> MutexGuard<'r, State> {
        let length = Duration::from_nanos(moment.saturating_sub(self.run.clock.now()));
        let bell = &self.run.bells[self.m as usize];
        state.waiting |= self.set();
        state = match bell.wait_timeout(state, length.min(Duration::from_secs(3600))) {
            Ok((state, _)) => state,
            Err(poisoned) => poisoned.into_inner().0,
        };
        state.waiting &= !self.set();
        state
    }
}
