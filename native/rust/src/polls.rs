//! Polls of goroutines: what one is told goes in, what it asks then comes out.
use crate::hand::Hand;
use crate::join::message_of;
use crate::run::{Aim, Bell, Body, Offer, State};
use crate::words::{ask, woke, Ask, Case, Event};
use std::panic::{catch_unwind, AssertUnwindSafe, Location};
use std::sync::atomic::AtomicU64;
use std::sync::Arc;
use std::task::{Context, Poll, Waker};

/// A goroutine that was polled, and what is kept of it if it goes on.
pub(crate) struct Polled {
    goroutine: u32,
    goes_on: Option<GoesOn>,
}

/// A goroutine's body, its bell, and what it asks.
struct GoesOn {
    body: Body,
    bell: (Arc<Bell>, Waker),
    offer: Box<Offer>,
}

/// What a goroutine is polled with: what it had asked, its body and its bell.
type Taken = (Option<Box<Offer>>, Option<Body>, Option<(Arc<Bell>, Waker)>);

impl State {
    /// What the host keeps of a goroutine that was polled; answers what is handed in for it.
    pub fn settle(&mut self, polled: Polled) -> (Ask, Vec<Case>) {
        let Polled { goroutine: g, goes_on } = polled;
        let Some(GoesOn { body, bell, mut offer }) = goes_on else {
            self.free.insert(g);
            return (Ask::of(ask::EXIT), vec![]);
        };
        let goroutine = &mut self.goroutines[g as usize];
        if goroutine.readied == offer.id && offer.ask.kind == ask::PARK {
            offer.ask = Ask::of(ask::YIELD);
        }
        let made = (offer.ask, offer.cases.clone());
        (goroutine.body, goroutine.bell) = (Some(body), Some(bell));
        goroutine.wait = Some(offer);
        made
    }
}

impl Hand {
    /// Polls the goroutine that the machine resumes.
    pub fn resume(&self, m: u8, event: Event) -> Polled {
        let g = event.goroutine;
        let ((told, body, bell), closes) = self.taken(event);
        self.take_up(m, g, told.as_ref().map(|wait| (wait.id, event)));
        for (number, mark) in closes {
            let _ = self.run.close(number, &mark);
        }
        let goes_on = body.zip(bell).and_then(|(body, bell)| self.poll(g, body, bell));
        // What nobody took is dropped.
        if let (Some(event), Some(offer)) = (self.taken_answer(), &told) {
            discard(offer, event);
        }
        drop(told);
        if goes_on.is_none() {
            let ended = std::mem::take(&mut self.run.lock().goroutines[g as usize]);
            drop(ended);
        }
        self.lay_down();
        Polled { goroutine: g, goes_on }
    }

    /// Takes what the goroutine is polled with, and the closes that it has to make. The first time it gets its bell.
    fn taken(&self, event: Event) -> (Taken, Vec<(u32, Arc<AtomicU64>)>) {
        let state = &mut *self.run.lock();
        let goroutine = &mut state.goroutines[event.goroutine as usize];
        if event.woke == woke::FIRST {
            goroutine.bell = Some(self.run.new_bell());
        }
        let taken = (goroutine.wait.take(), goroutine.body.take(), goroutine.bell.take());
        (taken, std::mem::take(&mut state.late_closes))
    }

    /// Polls the body; answers it with what it asks, if it has not ended.
    fn poll(&self, g: u32, mut body: Body, bell: (Arc<Bell>, Waker)) -> Option<GoesOn> {
        bell.0.silence();
        let context = &mut Context::from_waker(&bell.1);
        let polled = catch_unwind(AssertUnwindSafe(|| body.as_mut().poll(context)));
        match polled {
            Ok(Poll::Pending) => {
                let offer = self.taken_offer().unwrap_or_else(|| Box::new(foreign(&bell.0)));
                return Some(GoesOn { body, bell, offer });
            }
            Ok(Poll::Ready(())) => {}
            Err(panic) => self.run.panicked(g, message_of(&*panic)),
        }
        // What an ended goroutine holds is dropped; that may panic too.
        if let Err(panic) = catch_unwind(AssertUnwindSafe(|| drop(body))) {
            self.run.panicked(g, message_of(&*panic));
        }
        drop(self.taken_offer());
        None
    }
}

/// The goroutine awaits a future of another crate: a blocking call, until its waker is called.
fn foreign(bell: &Bell) -> Offer {
    let kind = if bell.is_rung() { ask::YIELD } else { ask::BLOCK };
    Offer::of(Ask::of(kind), Location::caller()).to(Aim::Other)
}

/// Drops the values of an answer that nobody took.
fn discard(offer: &Offer, event: Event) {
    let chosen = match event.woke {
        woke::GOT => Some((0, true)),
        woke::OK => Some((0, false)),
        _ => event.chosen(),
    };
    for (i, part) in offer.parts.iter().enumerate() {
        match (chosen.filter(|(at, _)| *at == i), part.key) {
            (Some((_, true)), None) if event.ok => part.held.discard(event.value),
            (None, Some(key)) => part.held.discard(key),
            _ => {}
        }
    }
}
