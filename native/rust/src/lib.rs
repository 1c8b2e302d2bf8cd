//! Goroutines of async Rust under the proved scheduler of Kuvendyra.
//!
//! A proved library decides who runs next, who waits and who is woken, by the rules of Go's scheduler and channels. This
//! crate polls futures, keeps values, and tells the time. All goroutines run in one thread, unless threads are asked for.
//!
//! - [`Runtime::builder`] runs a program by the real clock.
//! - [`Builder::threads`] runs it by several threads.
//! - [`Builder::traced_to`] writes its trace while it goes on, however long it lasts.
//! - [`sim::run`] runs it by a seed and a virtual clock: the same seed, the same run.
//! - [`sim::search`] looks for a seed by which it deadlocks, panics, is told a fault, or leaks a goroutine.
//!
//! What a goroutine holds, and what goes through a channel, is `Send`: so the same program runs by each of them.
//!
//! A goroutine waits for one thing at a time: two futures of this crate must not be polled side by side in one goroutine.
//! For several channels there is [`Select`], for more work at once [`go`].
//!
//! ```
//! use kuvendyra::{channel, go, Fault, Runtime};
//!
//! let ended = Runtime::builder().block_on(async {
//!     let (tx, rx) = channel(0)?;
//!     go(async move {
//!         for i in 1..=3 {
//!             tx.send(i).await?;
//!         }
//!         Ok::<(), Fault>(())
//!     });
//!     let mut sum = 0;
//!     while let Some(i) = rx.recv().await {
//!         sum += i;
//!     }
//!     assert_eq!(sum, 6);
//!     Ok::<(), Fault>(())
//! });
//! assert!(ended.panics.is_empty(), "{ended}");
//! assert!(ended.is_clean());
//! ```
#![deny(missing_docs)]
#![warn(rustdoc::broken_intra_doc_links)]

mod channel;
mod ended;
mod ends;
mod fault;
#[cfg(not(feature = "mock"))]
mod ffi;
mod hand;
mod join;
mod machines;
#[cfg(feature = "mock")]
mod mock;
mod parts;
mod polls;
mod random;
mod run;
mod runtime;
mod select;
pub mod sim;
mod slab;
mod threads;
mod time;
mod trace;
mod words;

pub use channel::{channel, nil};
pub use ended::{Ended, Left, Outcome, Panicked, Told};
pub use ends::{Receiver, Sender};
pub use fault::{Fault, SendError, TryRecvError, TrySendError};
#[cfg(not(feature = "mock"))]
use ffi::{Core, Parts};
pub use join::{go, spawn_blocking, JoinError, JoinHandle};
#[cfg(feature = "mock")]
use mock::{Core, Parts};
pub use runtime::{Answer, Builder, Runtime};
pub use select::Select;
pub use time::{now, sleep, sleep_until, yield_now, Moment};
pub use trace::{check, Wrong};

#[cfg(doctest)]
#[doc = include_str!("../README.md")]
struct Readme;
