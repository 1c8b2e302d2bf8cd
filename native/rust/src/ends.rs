//! The two ends of a channel.
use crate::channel::Inner;
use crate::fault::{Fault, SendError, TryRecvError, TrySendError};
use crate::hand::Asking;
use crate::words::{ask, Ask};
use std::fmt;
use std::future::Future;
use std::panic::Location;
use std::sync::Arc;

/// The end of a channel that sends. When the last one goes, the channel closes: at once, if a goroutine lets it go; in a blocking
/// call, or another thread, once the next goroutine goes on.
///
/// ```
/// use kuvendyra::{channel, go, Runtime};
///
/// let ended = Runtime::builder().block_on(async {
///     let (tx, rx) = channel(0).unwrap();
///     let other = tx.clone();
///     go(async move { tx.send("one").await });
///     go(async move { other.send("two").await });
///     let mut got = vec![];
///     while let Some(value) = rx.recv().await {
///         got.push(value);
///     }
///     assert_eq!(got.len(), 2);
/// });
/// assert!(ended.panics.is_empty(), "{ended}");
/// ```
pub struct Sender<T>(pub(crate) Arc<Inner<T>>);

/// The end of a channel that receives. There may be several; each value goes to one.
///
/// ```
/// use kuvendyra::{channel, Runtime};
///
/// let ended = Runtime::builder().block_on(async {
///     let (tx, rx) = channel(2).unwrap();
///     tx.send(1).await.unwrap();
///     tx.send(2).await.unwrap();
///     let other = rx.clone();
///     assert_eq!((rx.recv().await, other.recv().await), (Some(1), Some(2)));
/// });
/// assert!(ended.panics.is_empty(), "{ended}");
/// ```
pub struct Receiver<T>(pub(crate) Arc<Inner<T>>);

impl<T: Send + 'static> Sender<T> {
    /// Sends the value. It waits until there is room, or somebody receives it. An `Err` has the value again: the channel
    /// is closed, or the last receiver is gone.
    ///
    /// ```
    /// use kuvendyra::{channel, Fault, Runtime};
    ///
    /// let ended = Runtime::builder().block_on(async {
    ///     let (tx, _rx) = channel(1).unwrap();
    ///     tx.send(1).await.unwrap();
    ///     tx.close().unwrap();
    ///     assert_eq!(tx.send(2).await.unwrap_err().fault, Fault::SendOnClosed);
    /// });
    /// assert!(ended.panics.is_empty(), "{ended}");
    /// ```
    #[track_caller]
    pub fn send(&self, value: T) -> impl Future<Output = Result<(), SendError<T>>> + '_ {
        let place = Location::caller();
        async move {
            let key = self.0.put(value)?;
            let event = Asking::new(self.0.offer(Some(key), place)).await;
            self.0.sent(key, &event)
        }
    }

    /// Sends the value, if that needs no waiting.
    ///
    /// ```
    /// use kuvendyra::{channel, Runtime};
    ///
    /// let ended = Runtime::builder().block_on(async {
    ///     let (tx, _rx) = channel(1).unwrap();
    ///     assert!(tx.try_send(1).is_ok());
    ///     assert!(tx.try_send(2).is_err());
    /// });
    /// assert!(ended.panics.is_empty(), "{ended}");
    /// ```
    pub fn try_send(&self, value: T) -> Result<(), TrySendError<T>> {
        let key = self.0.put(value).map_err(TrySendError::Fault)?;
        let hand = self.0.hand();
        let (case, _) = self.0.case(Some(key));
        let answer = hand.ask_unnoted(Ask::on(ask::SELECT, 1, u64::MAX), &[case]);
        if answer.is_ok_and(|event| event.chosen().is_some()) {
            return Ok(());
        }
        let Some(value) = self.0.take(key) else {
            return Ok(());
        };
        let fault = match answer {
            Ok(_) => return Err(TrySendError::Full(value)),
            Err(Fault::SendOnClosed) => self.0.refusal(),
            Err(fault) => hand.note(fault),
        };
        Err(TrySendError::Fault(SendError { value, fault }))
    }

    /// Closes the channel. What was sent can still be received.
    ///
    /// ```
    /// use kuvendyra::{channel, Runtime};
    ///
    /// let ended = Runtime::builder().block_on(async {
    ///     let (tx, rx) = channel(1).unwrap();
    ///     tx.send(7).await.unwrap();
    ///     tx.close().unwrap();
    ///     assert_eq!((rx.recv().await, rx.recv().await), (Some(7), None));
    /// });
    /// assert!(ended.panics.is_empty(), "{ended}");
    /// ```
    pub fn close(&self) -> Result<(), Fault> {
        let hand = self.0.hand();
        self.0.close().map_err(|fault| hand.note(fault))
    }
}

impl<T: Send + 'static> Receiver<T> {
    /// The next value, or `None` once the channel is closed and empty.
    ///
    /// ```
    /// use kuvendyra::{channel, Runtime};
    ///
    /// let ended = Runtime::builder().block_on(async {
    ///     let (tx, rx) = channel::<u8>(0).unwrap();
    ///     drop(tx);
    ///     assert_eq!(rx.recv().await, None);
    /// });
    /// assert!(ended.panics.is_empty(), "{ended}");
    /// ```
    #[track_caller]
    pub fn recv(&self) -> impl Future<Output = Option<T>> + '_ {
        let place = Location::caller();
        async move {
            let event = Asking::new(self.0.offer(None, place)).await;
            self.0.received(&event)
        }
    }

    /// The next value, if there is one now.
    ///
    /// ```
    /// use kuvendyra::{channel, Runtime, TryRecvError};
    ///
    /// let ended = Runtime::builder().block_on(async {
    ///     let (tx, rx) = channel(1).unwrap();
    ///     assert_eq!(rx.try_recv(), Err(TryRecvError::Empty));
    ///     tx.send(1).await.unwrap();
    ///     assert_eq!(rx.try_recv(), Ok(1));
    /// });
    /// assert!(ended.panics.is_empty(), "{ended}");
    /// ```
    pub fn try_recv(&self) -> Result<T, TryRecvError> {
        let (case, _) = self.0.case(None);
        match self.0.hand().ask_now(Ask::on(ask::SELECT, 1, u64::MAX), &[case]) {
            Ok(event) if event.chosen().is_some() => self.0.received(&event).ok_or(TryRecvError::Closed),
            _ => Err(TryRecvError::Empty),
        }
    }

    /// How many values the channel holds.
    ///
    /// ```
    /// use kuvendyra::{channel, Runtime};
    ///
    /// let ended = Runtime::builder().block_on(async {
    ///     let (tx, rx) = channel(2).unwrap();
    ///     tx.send(1).await.unwrap();
    ///     assert_eq!(rx.len(), 1);
    /// });
    /// assert!(ended.panics.is_empty(), "{ended}");
    /// ```
    pub fn len(&self) -> usize {
        let answer = self.0.hand().ask_now(Ask::on(ask::LEN, self.0.number, 0), &[]);
        answer.map_or(0, |event| event.value as usize)
    }

    /// How many values the channel has room for.
    ///
    /// ```
    /// use kuvendyra::{channel, Runtime};
    ///
    /// let ended = Runtime::builder().block_on(async {
    ///     let (_tx, rx) = channel::<u8>(2).unwrap();
    ///     assert_eq!(rx.capacity(), 2);
    /// });
    /// assert!(ended.panics.is_empty(), "{ended}");
    /// ```
    pub fn capacity(&self) -> usize {
        self.0.capacity as usize
    }

    /// Whether the channel holds no value.
    ///
    /// ```
    /// use kuvendyra::{channel, Runtime};
    ///
    /// let ended = Runtime::builder().block_on(async {
    ///     let (_tx, rx) = channel::<u8>(2).unwrap();
    ///     assert!(rx.is_empty());
    /// });
    /// assert!(ended.panics.is_empty(), "{ended}");
    /// ```
    pub fn is_empty(&self) -> bool {
        self.len() == 0
    }
}

impl<T> Clone for Sender<T> {
    fn clone(&self) -> Self {
        self.0.add_sender();
        Sender(self.0.clone())
    }
}

impl<T> Clone for Receiver<T> {
    fn clone(&self) -> Self {
        self.0.add_receiver();
        Receiver(self.0.clone())
    }
}

impl<T> Drop for Sender<T> {
    /// The last sender closes the channel.
    fn drop(&mut self) {
        self.0.drop_sender();
    }
}

impl<T> Drop for Receiver<T> {
    fn drop(&mut self) {
        self.0.drop_receiver();
    }
}

impl<T> fmt::Debug for Sender<T> {
    fn fmt(&self, f: &mut fmt::Formatter<'_>) -> fmt::Result {
        write!(f, "Sender({})", self.0.number)
    }
}

impl<T> fmt::Debug for Receiver<T> {
    fn fmt(&self, f: &mut fmt::Formatter<'_>) -> fmt::Result {
        write!(f, "Receiver({})", self.0.number)
    }
}
