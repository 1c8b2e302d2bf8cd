//! Traces: the log of a run as a text, and the proved checker that judges it.
use crate::Core;
use std::fmt;

/// Why a text isn't called a right trace.
///
/// ```
/// use kuvendyra::{check, Wrong};
///
/// let wrong = check("no trace").unwrap_err();
/// assert!(matches!(wrong, Wrong::Line(1) | Wrong::NoMemory));
/// ```
#[derive(Clone, Copy, Debug, PartialEq, Eq)]
pub enum Wrong {
    /// The first bad line, counted from 1.
    Line(u64),
    /// There was no memory to judge it.
    NoMemory,
}

impl fmt::Display for Wrong {
    fn fmt(&self, f: &mut fmt::Formatter<'_>) -> fmt::Result {
        match self {
            Wrong::Line(line) => write!(f, "line {line} is wrong"),
            Wrong::NoMemory => f.write_str("no memory to judge the trace"),
        }
    }
}

impl std::error::Error for Wrong {}

/// Judges a trace, of whichever scheduler: each line has to be a step that the rules allow. It is proved that `Ok` is answered
/// only of a legal run, and that the line that is named is the first bad one.
///
/// ```
/// use kuvendyra::{check, yield_now, Runtime};
///
/// let ended = Runtime::builder().simulated().traced().block_on(async { yield_now().await });
/// if let Some(trace) = ended.trace {
///     assert_eq!(check(&trace), Ok(()));
///     assert!(check(&trace.replace("main ended", "all asleep")).is_err());
/// }
/// ```
pub fn check(trace: &str) -> Result<(), Wrong> {
    match Core::check_text(trace) {
        (0, _) => Ok(()),
        (1, line) => Err(Wrong::Line(line)),
        _ => Err(Wrong::NoMemory),
    }
}
