//! Channels. The scheduler sees the numbers of values; the values are here.
use crate::ends::{Receiver, Sender};
use crate::fault::{Fault, SendError};
use crate::hand::Hand;
use crate::run::{locked, Held, Offer, Part, Place, Run};
use crate::slab::Slab;
use crate::words::{ask, woke, Ask, Case, Event, MAX_CAPACITY, NIL};
use std::rc::Rc;
use std::sync::atomic::{AtomicBool, AtomicU64, AtomicUsize, Ordering::SeqCst};
use std::sync::{Arc, Mutex, Weak};

/// What both ends share.
pub(crate) struct Inner<T> {
    run: Weak<Run>,
    pub(crate) number: u32,
    pub(crate) capacity: u32,
    values: Mutex<Slab<T>>,
    senders: AtomicUsize,
    receivers: AtomicUsize,
    /// Closed for those who send; the scheduler may not know.
    closed: AtomicBool,
    /// Which close of the run, counted from 1, told the scheduler that it is closed; 0, if none did.
    mark: Arc<AtomicU64>,
}

impl<T: Send> Held for Inner<T> {
    fn discard(&self, key: u64) {
        drop(self.take(key));
    }
}

impl<T> Inner<T> {
    pub(crate) fn take(&self, key: u64) -> Option<T> {
        locked(&self.values).take(key)
    }

    fn is_nil(&self) -> bool {
        self.number == NIL
    }

    /// The thread's hand. Its run has to be the channel's.
    pub(crate) fn hand(&self) -> Rc<Hand> {
        let hand = Hand::current();
        let mine = self.is_nil() || self.run.as_ptr() == Arc::as_ptr(&hand.run);
        assert!(mine, "a channel of another run");
        hand
    }

    fn close_in_core(&self) -> Result<(), Fault> {
        let run = self.run.upgrade().ok_or(Fault::Over)?;
        run.close(self.number, &self.mark)
    }

    /// Closes the channel. Where nobody could hear of it, the scheduler isn't told.
    pub(crate) fn close(&self) -> Result<(), Fault> {
        if self.is_nil() {
            return Err(Fault::CloseOfNil);
        }
        if self.closed.swap(true, SeqCst) {
            return Err(Fault::CloseOfClosed);
        }
        if self.has_no_receiver() {
            return Ok(());
        }
        match self.close_in_core() {
            // The last receiver went meanwhile, and let the senders go.
            Err(Fault::CloseOfClosed) => Ok(()),
            closed => closed,
        }
    }

    /// One more sender.
    pub(crate) fn add_sender(&self) {
        self.senders.fetch_add(1, SeqCst);
    }

    /// One more receiver.
    pub(crate) fn add_receiver(&self) {
        self.receivers.fetch_add(1, SeqCst);
    }

    /// A sender goes; the last one closes the channel.
    pub(crate) fn drop_sender(&self) {
        if self.senders.fetch_sub(1, SeqCst) == 1 {
            let _ = self.close();
        }
    }

    /// A receiver goes; the last one wakes those who wait to send. There are any only where there are more values than room.
    pub(crate) fn drop_receiver(&self) {
        if self.receivers.fetch_sub(1, SeqCst) == 1 {
            let waits = locked(&self.values).len() > self.capacity as usize;
            if waits && !self.is_nil() && self.closed_as().is_none() {
                let _ = self.close_in_core();
            }
        }
    }

    /// What is told of a send that met a closed channel.
    pub(crate) fn refusal(&self) -> Fault {
        if self.has_no_receiver() {
            Fault::NoReceiver
        } else {
            self.hand().note(Fault::SendOnClosed)
        }
    }

    pub(crate) fn has_no_receiver(&self) -> bool {
        self.receivers.load(SeqCst) == 0
    }

    /// Which close of the run was this channel's.
    pub(crate) fn closed_as(&self) -> Option<u64> {
        Some(self.mark.load(SeqCst)).filter(|close| *close > 0)
    }

    /// Lays the value down, and answers its key; or the value, where nobody can receive it. The last receiver that goes looks at
    /// the values behind that, so it sees each that was laid down.
    pub(crate) fn put(&self, value: T) -> Result<u64, SendError<T>> {
        self.hand();
        let mut values = locked(&self.values);
        if self.has_no_receiver() {
            return Err(SendError { value, fault: Fault::NoReceiver });
        }
        Ok(values.put(value))
    }

    /// What the answer to a send says, by the value's key.
    pub(crate) fn sent(&self, key: u64, event: &Event) -> Result<(), SendError<T>> {
        match event.woke {
            woke::FAULT => match self.take(key) {
                Some(value) => Err(SendError { value, fault: self.refusal() }),
                None => Ok(()),
            },
            _ => Ok(()),
        }
    }

    /// What the answer to a receive says.
    pub(crate) fn received(&self, event: &Event) -> Option<T> {
        if event.ok {
            self.take(event.value)
        } else {
            None
        }
    }
}

impl<T: Send + 'static> Inner<T> {
    /// The case of a receive, or of a send of the value with this key; and what the run holds of it.
    pub(crate) fn case(self: &Arc<Inner<T>>, key: Option<u64>) -> (Case, Part) {
        self.hand();
        let case = Case { sends: key.is_some(), channel: self.number, value: key.unwrap_or(0) };
        (case, Part { held: self.clone(), key })
    }

    pub(crate) fn offer(self: &Arc<Inner<T>>, key: Option<u64>, place: Place) -> Offer {
        let (case, part) = self.case(key);
        let kind = if case.sends { ask::SEND } else { ask::RECV };
        let mut offer = Offer::of(Ask::on(kind, case.channel, case.value), place);
        offer.parts = vec![part];
        offer
    }
}

impl<T> Drop for Inner<T> {
    /// A channel that is empty and open can be used again. Nobody waits on it, since who waits holds it.
    fn drop(&mut self) {
        let is_empty = locked(&self.values).is_empty();
        if self.is_nil() || self.closed_as().is_some() || !is_empty {
            return;
        }
        if let Some(run) = self.run.upgrade() {
            locked(&run.numbers).free.entry(self.capacity).or_default().push(self.number);
        }
    }
}

/// A channel with room for so many values, 4,096 at most; with no room a value goes from hand to hand.
///
/// A channel both of whose ends are gone is used again for the same capacity, if it is empty and was not closed. Past
/// 1,024 that are in use or closed, the answer is [`Fault::TooManyChannels`].
///
/// # Panics
///
/// Outside of a run.
///
/// ```
/// use kuvendyra::{channel, Fault, Runtime};
///
/// let ended = Runtime::builder().block_on(async {
///     let (tx, rx) = channel(1).unwrap();
///     tx.send(String::from("hello")).await.unwrap();
///     assert_eq!(rx.recv().await.as_deref(), Some("hello"));
///     assert_eq!(channel::<u8>(5000).err(), Some(Fault::BadCapacity));
/// });
/// assert!(ended.panics.is_empty(), "{ended}");
/// ```
pub fn channel<T: Send + 'static>(capacity: u32) -> Result<(Sender<T>, Receiver<T>), Fault> {
    let hand = Hand::current();
    let number = number_of(&hand, capacity).map_err(|fault| hand.note(fault))?;
    Ok(ends(Arc::downgrade(&hand.run), number, capacity))
}

/// A channel that is nil: who sends on it or receives from it waits for good, and as a case of a select it never proceeds.
///
/// ```
/// use kuvendyra::{nil, sim, Fault, Outcome};
///
/// let ended = sim::run(0, || async {
///     let (tx, rx) = nil::<u8>();
///     assert_eq!(tx.close(), Err(Fault::CloseOfNil));
///     rx.recv().await;
/// });
/// assert!(ended.panics.is_empty(), "{ended}");
/// assert_eq!(ended.outcome, Outcome::Deadlock);
/// ```
pub fn nil<T: Send + 'static>() -> (Sender<T>, Receiver<T>) {
    ends(Weak::new(), NIL, 0)
}

fn ends<T>(run: Weak<Run>, number: u32, capacity: u32) -> (Sender<T>, Receiver<T>) {
    let inner = Arc::new(Inner {
        run,
        number,
        capacity,
        values: Mutex::default(),
        senders: AtomicUsize::new(1),
        receivers: AtomicUsize::new(1),
        closed: AtomicBool::new(false),
        mark: Arc::default(),
    });
    (Sender(inner.clone()), Receiver(inner))
}

/// The number of a channel that is free, else of a new one.
fn number_of(hand: &Hand, capacity: u32) -> Result<u32, Fault> {
    if capacity > MAX_CAPACITY {
        return Err(Fault::BadCapacity);
    }
    let most = hand.run.limits.channels;
    {
        let mut numbers = locked(&hand.run.numbers);
        if let Some(number) = numbers.free.get_mut(&capacity).and_then(Vec::pop) {
            return Ok(number);
        }
        if numbers.made == most {
            return Err(Fault::TooManyChannels(most));
        }
        numbers.made += 1;
    }
    let made = hand.ask_unnoted(Ask::with(ask::MAKE, capacity.into()), &[]);
    if made.is_err() {
        locked(&hand.run.numbers).made -= 1;
    }
    Ok(made?.value as u32)
}
