//! What is told in place of a panic of Go.
use std::fmt;

/// Why the scheduler refused what was asked. Where Go panics, a goroutine is told a fault and goes on.
///
/// ```
/// use kuvendyra::{channel, Fault, Runtime};
///
/// let ended = Runtime::builder().block_on(async {
///     let (tx, _rx) = channel::<u8>(1).unwrap();
///     assert_eq!(tx.close(), Ok(()));
///     assert_eq!(tx.close(), Err(Fault::CloseOfClosed));
///     assert_eq!(Fault::CloseOfClosed.to_string(), "close of closed channel");
/// });
/// assert!(ended.panics.is_empty(), "{ended}");
/// assert_eq!(ended.faults[0].fault, Fault::CloseOfClosed);
/// ```
#[derive(Clone, Copy, Debug, PartialEq, Eq, Hash)]
#[non_exhaustive]
pub enum Fault {
    /// All goroutines that the builder allows are in use.
    NoFreeGoroutine,
    /// The channel is closed, or was closed while the send waited.
    SendOnClosed,
    /// The channel was closed before.
    CloseOfClosed,
    /// A nil channel can't be closed.
    CloseOfNil,
    /// A channel has room for 4,096 values at most.
    BadCapacity,
    /// So many channels are in use or closed; a closed channel isn't used again.
    TooManyChannels(u16),
    /// The scheduler had no memory for one more channel.
    NoMemory,
    /// Nobody can receive any more: the last receiver is gone. This is no panic of Go, so it is none of
    /// [`Ended::faults`](crate::Ended::faults).
    NoReceiver,
    /// The system had no thread for a blocking call. This is no panic of Go.
    NoThread,
    /// The run is over, or its history is full.
    Over,
    /// A number that the crate gives no name.
    Other(u64),
}

impl Fault {
    pub(crate) fn of(number: u64) -> Fault {
        match number {
            1 => Fault::NoFreeGoroutine,
            4 => Fault::SendOnClosed,
            5 => Fault::CloseOfClosed,
            6 => Fault::CloseOfNil,
            8 => Fault::BadCapacity,
            n => Fault::Other(n),
        }
    }

    /// Whether Go panics here.
    pub(crate) fn is_told(self) -> bool {
        !matches!(self, Fault::NoReceiver | Fault::NoThread | Fault::Over)
    }
}

impl fmt::Display for Fault {
    fn fmt(&self, f: &mut fmt::Formatter<'_>) -> fmt::Result {
        match self {
            Fault::NoFreeGoroutine => f.write_str("all goroutines are in use"),
            Fault::SendOnClosed => f.write_str("send on closed channel"),
            Fault::CloseOfClosed => f.write_str("close of closed channel"),
            Fault::CloseOfNil => f.write_str("close of nil channel"),
            Fault::BadCapacity => f.write_str("a channel has room for 4,096 values at most"),
            Fault::TooManyChannels(1024) => f.write_str("1,024 channels are in use or closed"),
            Fault::TooManyChannels(n) => write!(f, "{n} channels are in use or closed"),
            Fault::NoMemory => f.write_str("no memory for a channel"),
            Fault::NoReceiver => f.write_str("the last receiver is gone"),
            Fault::NoThread => f.write_str("no thread for a blocking call"),
            Fault::Over => f.write_str("the run is over"),
            Fault::Other(n) => write!(f, "fault {n}"),
        }
    }
}

impl std::error::Error for Fault {}

/// A value that was not sent, and why.
///
/// ```
/// use kuvendyra::{channel, Fault, Runtime};
///
/// let ended = Runtime::builder().block_on(async {
///     let (tx, rx) = channel(0).unwrap();
///     drop(rx);
///     let error = tx.send("hello").await.unwrap_err();
///     assert_eq!((error.value, error.fault), ("hello", Fault::NoReceiver));
/// });
/// assert!(ended.panics.is_empty(), "{ended}");
/// ```
#[derive(Clone, Copy, PartialEq, Eq)]
pub struct SendError<T> {
    /// The value, given back.
    pub value: T,
    /// Why it was not sent.
    pub fault: Fault,
}

impl<T> fmt::Debug for SendError<T> {
    fn fmt(&self, f: &mut fmt::Formatter<'_>) -> fmt::Result {
        f.debug_struct("SendError").field("fault", &self.fault).finish_non_exhaustive()
    }
}

impl<T> fmt::Display for SendError<T> {
    fn fmt(&self, f: &mut fmt::Formatter<'_>) -> fmt::Result {
        self.fault.fmt(f)
    }
}

impl<T> std::error::Error for SendError<T> {}

impl<T> From<SendError<T>> for Fault {
    fn from(error: SendError<T>) -> Fault {
        error.fault
    }
}

/// Why [`Sender::try_send`](crate::Sender::try_send) did not send.
///
/// ```
/// use kuvendyra::{channel, Runtime, TrySendError};
///
/// let ended = Runtime::builder().block_on(async {
///     let (tx, _rx) = channel(1).unwrap();
///     assert!(tx.try_send(1).is_ok());
///     assert!(matches!(tx.try_send(2), Err(TrySendError::Full(2))));
/// });
/// assert!(ended.panics.is_empty(), "{ended}");
/// ```
#[derive(PartialEq, Eq)]
pub enum TrySendError<T> {
    /// It would wait. The value is given back.
    Full(T),
    /// It never will be sent.
    Fault(SendError<T>),
}

impl<T> fmt::Debug for TrySendError<T> {
    fn fmt(&self, f: &mut fmt::Formatter<'_>) -> fmt::Result {
        match self {
            TrySendError::Full(_) => f.write_str("Full(..)"),
            TrySendError::Fault(error) => error.fmt(f),
        }
    }
}

impl<T> fmt::Display for TrySendError<T> {
    fn fmt(&self, f: &mut fmt::Formatter<'_>) -> fmt::Result {
        match self {
            TrySendError::Full(_) => f.write_str("the send would wait"),
            TrySendError::Fault(error) => error.fault.fmt(f),
        }
    }
}

impl<T> std::error::Error for TrySendError<T> {}

/// Why [`Receiver::try_recv`](crate::Receiver::try_recv) received nothing.
///
/// ```
/// use kuvendyra::{channel, Runtime, TryRecvError};
///
/// let ended = Runtime::builder().block_on(async {
///     let (tx, rx) = channel::<u8>(1).unwrap();
///     assert_eq!(rx.try_recv(), Err(TryRecvError::Empty));
///     drop(tx);
///     assert_eq!(rx.try_recv(), Err(TryRecvError::Closed));
/// });
/// assert!(ended.panics.is_empty(), "{ended}");
/// ```
#[derive(Clone, Copy, Debug, PartialEq, Eq)]
pub enum TryRecvError {
    /// It would wait.
    Empty,
    /// The channel is closed and empty.
    Closed,
}

impl fmt::Display for TryRecvError {
    fn fmt(&self, f: &mut fmt::Formatter<'_>) -> fmt::Result {
        f.write_str(match self {
            TryRecvError::Empty => "the receive would wait",
            TryRecvError::Closed => "the channel is closed and empty",
        })
    }
}

impl std::error::Error for TryRecvError {}
