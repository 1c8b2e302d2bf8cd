//! The trace of a run, written in parts while the run goes on.
use crate::join::message_of;
use crate::run::locked;
use crate::words::{Limits, OUT_OF_MEMORY};
use crate::{Core, Parts};
use std::fmt;
use std::io::{self, Write};
use std::panic::{catch_unwind, AssertUnwindSafe};
use std::sync::{Arc, Mutex};

/// Where parts go.
#[derive(Clone)]
pub(crate) struct Outlet(Arc<Mutex<dyn Write + Send>>);

impl fmt::Debug for Outlet {
    fn fmt(&self, f: &mut fmt::Formatter<'_>) -> fmt::Result {
        f.write_str("Outlet")
    }
}

impl Outlet {
    pub fn new(writer: impl Write + Send + 'static) -> Outlet {
        Outlet(Arc::new(Mutex::new(writer)))
    }

    /// Lets the writer do this; a panic of it is an error.
    fn act(&self, act: impl FnOnce(&mut dyn Write) -> io::Result<()>) -> Result<(), String> {
        match catch_unwind(AssertUnwindSafe(|| act(&mut *locked(&self.0)))) {
            Ok(done) => done.map_err(|error| error.to_string()),
            Err(panic) => Err(format!("the writer panicked: {}", message_of(&*panic))),
        }
    }
}

/// The parts of a run, and where they go.
pub(crate) struct Written {
    parts: Parts,
    outlet: Outlet,
    failed: Option<String>,
}

/// The words of a refusal.
fn why(number: u32) -> String {
    match number {
        OUT_OF_MEMORY => "no memory".into(),
        _ => "the history doesn't go on where the last part stops".into(),
    }
}

impl Written {
    /// Nothing is written yet; else the number of the refusal.
    pub fn open(limits: &Limits, goroutines: u16, outlet: &Outlet) -> Result<Written, u32> {
        let parts = Parts::open(limits, goroutines)?;
        Ok(Written { parts, outlet: outlet.clone(), failed: None })
    }

    pub fn has_failed(&self) -> bool {
        self.failed.is_some()
    }

    /// Writes the piece that the run handed out last as the next part. Once that failed nothing more is written.
    pub fn piece(&mut self, core: &mut Core) {
        if self.failed.is_none() {
            let text = self.parts.next(core).map_err(why);
            let put = text.and_then(|text| self.outlet.act(|writer| writer.write_all(text.as_bytes())));
            self.failed = put.err();
        }
    }

    /// Ends what was written, of which the last piece is out, if there was memory for that. Answers what failed.
    pub fn end(self, is_out: bool) -> Option<String> {
        match self.failed {
            None if is_out => self.outlet.act(|writer| writer.flush()).err(),
            None => Some(why(OUT_OF_MEMORY)),
            failed => failed,
        }
    }
}
