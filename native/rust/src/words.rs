//! What the scheduler and the host say to each other, in numbers: those of the C header.

/// How large a run may be.
#[repr(C)]
#[derive(Clone, Copy, Debug)]
pub struct Limits {
    pub procs: u8,
    pub machines: u8,
    pub channels: u16,
    pub room: u32,
    pub entries: u64,
}

/// What a goroutine asks, or what its blocking call answered.
#[repr(C)]
#[derive(Clone, Copy, Debug)]
pub struct Ask {
    pub kind: u32,
    pub channel: u32,
    pub value: u64,
}

/// One case of a select.
#[repr(C)]
#[derive(Clone, Copy, Debug)]
pub struct Case {
    pub sends: bool,
    pub channel: u32,
    pub value: u64,
}

/// What a machine came to.
#[repr(C)]
#[derive(Clone, Copy, Debug, Default)]
pub struct Event {
    pub kind: u32,
    pub goroutine: u32,
    pub woke: u32,
    pub ok: bool,
    pub value: u64,
}

pub const NIL: u32 = u32::MAX;
pub const NEVER: u64 = u64::MAX;
/// The last moment that may come.
pub const LAST: u64 = NEVER - 1;
pub const MAX_CASES: usize = 8;
/// The number of the refusal for want of memory.
pub const OUT_OF_MEMORY: u32 = 28;
pub const MAX_CAPACITY: u32 = 4096;

/// Kinds of asks.
pub mod ask {
    pub const NONE: u32 = 0;
    pub const YIELD: u32 = 1;
    pub const SPAWN: u32 = 3;
    pub const MAKE: u32 = 4;
    pub const SEND: u32 = 5;
    pub const RECV: u32 = 6;
    pub const CLOSE: u32 = 7;
    pub const LEN: u32 = 8;
    pub const SELECT: u32 = 10;
    pub const SLEEP: u32 = 11;
    pub const PARK: u32 = 13;
    pub const READY: u32 = 14;
    pub const BLOCK: u32 = 15;
    pub const EXIT: u32 = 16;
    pub const ANSWER: u32 = 17;
}

/// Kinds of events.
pub mod event {
    pub const MORE: u32 = 0;
    pub const PARKED: u32 = 1;
    pub const DONE: u32 = 2;
    pub const RESUME: u32 = 3;
    pub const CALL: u32 = 4;
    pub const WAIT: u32 = 5;
}

/// What a goroutine is told.
pub mod woke {
    pub const FIRST: u32 = 1;
    pub const OK: u32 = 2;
    pub const GOT: u32 = 3;
    pub const DEFAULT: u32 = 4;
    pub const LATE: u32 = 5;
    pub const FAULT: u32 = 8;
    pub const NO_MEMORY: u32 = 9;
    pub const CHOSE_SENT: u32 = 16;
    pub const CHOSE_GOT: u32 = 512;
}

/// How a run ended.
pub mod outcome {
    pub const RUNS: u32 = 0;
    pub const MAIN_ENDED: u32 = 1;
    pub const ALL_ASLEEP: u32 = 2;
}

/// What a goroutine does.
pub mod status {
    pub const WAITING: u32 = 4;
}

impl Ask {
    pub const NONE: Ask = Ask::of(ask::NONE);

    pub const fn of(kind: u32) -> Ask {
        Ask { kind, channel: 0, value: 0 }
    }

    pub const fn with(kind: u32, value: u64) -> Ask {
        Ask { kind, channel: 0, value }
    }

    pub const fn on(kind: u32, channel: u32, value: u64) -> Ask {
        Ask { kind, channel, value }
    }
}

impl Event {
    /// The case of a select that was chosen, if this is the answer to one, and whether it received.
    pub fn chosen(&self) -> Option<(usize, bool)> {
        let upper = |first: u32| first..first + MAX_CASES as u32;
        if upper(woke::CHOSE_SENT).contains(&self.woke) {
            Some(((self.woke - woke::CHOSE_SENT) as usize, false))
        } else if upper(woke::CHOSE_GOT).contains(&self.woke) {
            Some(((self.woke - woke::CHOSE_GOT) as usize, true))
        } else {
            None
        }
    }
}
