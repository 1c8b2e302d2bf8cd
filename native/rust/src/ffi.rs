//! The proved core behind safe methods. The whole trusted seam, and all `unsafe` code of the crate, is this file.
#![allow(unsafe_code)]

use crate::words::{Ask, Case, Event, Limits, OUT_OF_MEMORY};

/// A handle of C: one word.
#[repr(transparent)]
#[derive(Clone, Copy)]
struct Handle(*mut u8);

unsafe extern "C" {
    fn gmp_open(
        limits: *const Limits,
        goroutines: u16,
        capacities: *const u32,
        n: usize,
        fair: bool,
        out: *mut *mut u8,
    ) -> u32;
    fn gmp_close(h: Handle);
    fn gmp_turn(
        h: *mut Handle,
        m: u8,
        ask: *const Ask,
        cases: *const Case,
        n: usize,
        now: u64,
        word: u64,
        event: *mut Event,
    );
    fn gmp_parked(h: *mut Handle) -> u64;
    fn gmp_outcome(h: *mut Handle) -> u32;
    fn gmp_entries(h: *mut Handle) -> u64;
    fn gmp_status(h: *mut Handle, g: u16) -> u32;
    fn gmp_status_text(h: *mut Handle, g: u16, buffer: *mut u8, n: usize, len: *mut u64) -> u32;
    fn gmp_hand_out(h: *mut Handle) -> u32;
    fn gmp_piece_len(h: *mut Handle) -> u64;
    fn gmp_text(h: *mut Handle, buffer: *mut u8, n: usize, len: *mut u64) -> u32;
    fn gmp_check_text(text: *const u8, n: usize, line: *mut u64) -> u32;
    fn gmp_parts_open(
        limits: *const Limits,
        goroutines: u16,
        capacities: *const u32,
        n: usize,
        out: *mut *mut u8,
    ) -> u32;
    fn gmp_parts_write(p: *mut Handle, h: *mut Handle) -> u32;
    fn gmp_parts_text(p: *mut Handle, buffer: *mut u8, n: usize, len: *mut u64) -> u32;
    fn gmp_parts_close(p: Handle);
}

/// The array of the capacities of a run that begins without channels.
const NO_CHANNELS: [u32; 1] = [0];

/// A run of the proved scheduler. It is closed when it is dropped.
pub struct Core(Handle);

// SAFETY: what is behind the handle is `Send`, which is checked where the library is built; no call here shares it, as each
// has the only reference to the handle.
unsafe impl Send for Core {}

impl Core {
    /// Opens a run without channels; else the number of the refusal.
    pub fn open(limits: &Limits, goroutines: u16) -> Result<Core, u32> {
        let mut at = std::ptr::null_mut();
        // SAFETY: all pointers are of live values; of the capacities 0 elements are looked at.
        let why = unsafe { gmp_open(limits, goroutines, NO_CHANNELS.as_ptr(), 0, true, &mut at) };
        if why == 0 {
            Ok(Core(Handle(at)))
        } else {
            Err(why)
        }
    }

    /// Machine `m` acts until it needs something from outside.
    pub fn turn(&mut self, m: u8, ask: &Ask, cases: &[Case], now: u64, word: u64) -> Event {
        let mut event = Event::default();
        // SAFETY: the handle is open, since only `drop` closes it; `&mut self` makes this the only call on it; the
        // array has as many elements as its count says.
        unsafe {
            gmp_turn(&mut self.0, m, ask, cases.as_ptr(), cases.len(), now, word, &mut event);
        }
        event
    }

    /// The set of machines that are parked.
    pub fn parked(&mut self) -> u64 {
        // SAFETY: the handle is open, and this is the only call on it.
        unsafe { gmp_parked(&mut self.0) }
    }

    /// How the run ended; 0, if it did not.
    pub fn outcome(&mut self) -> u32 {
        // SAFETY: the handle is open, and this is the only call on it.
        unsafe { gmp_outcome(&mut self.0) }
    }

    /// How many entries the history holds since the last hand-out.
    pub fn entries(&mut self) -> u64 {
        // SAFETY: the handle is open, and this is the only call on it.
        unsafe { gmp_entries(&mut self.0) }
    }

    /// What a goroutine does.
    pub fn status(&mut self, g: u16) -> u32 {
        // SAFETY: the handle is open, and this is the only call on it.
        unsafe { gmp_status(&mut self.0, g) }
    }

    /// What a goroutine does, in words, if there is memory.
    pub fn status_text(&mut self, g: u16) -> Option<String> {
        // SAFETY: the handle is open, and this is the only call on it; the buffer has as many bytes as its count says.
        whole(|buffer, len| unsafe {
            gmp_status_text(&mut self.0, g, buffer.as_mut_ptr(), buffer.len(), len)
        })
        .ok()
    }

    /// Takes the entries out of the history; answers whether there was memory for it.
    pub fn hand_out(&mut self) -> bool {
        // SAFETY: the handle is open, and this is the only call on it.
        unsafe { gmp_hand_out(&mut self.0) == 0 }
    }

    /// How many entries went out of the history the last time.
    pub fn piece_len(&mut self) -> u64 {
        // SAFETY: the handle is open, and this is the only call on it.
        unsafe { gmp_piece_len(&mut self.0) }
    }

    /// The text of the run's trace, if the history is whole and there is memory.
    pub fn text(&mut self) -> Option<String> {
        // SAFETY: the handle is open, and this is the only call on it; the buffer has as many bytes as its count says.
        whole(|buffer, len| unsafe { gmp_text(&mut self.0, buffer.as_mut_ptr(), buffer.len(), len) }).ok()
    }

    /// Judges a trace: 0, if it is right; 1 and the first bad line; else there was no memory.
    pub fn check_text(text: &str) -> (u32, u64) {
        let mut line = 0;
        // SAFETY: the text has as many bytes as its count says.
        let answer = unsafe { gmp_check_text(text.as_ptr(), text.len(), &mut line) };
        (answer, line)
    }
}

impl Drop for Core {
    fn drop(&mut self) {
        // SAFETY: the handle is open, and no copy of it is used afterwards.
        unsafe { gmp_close(self.0) }
    }
}

/// The trace of a run in parts. They are closed when this is dropped.
pub struct Parts(Handle);

// SAFETY: as for `Core`.
unsafe impl Send for Parts {}

impl Parts {
    /// Opens the parts of a run without channels; else the number of the refusal.
    pub fn open(limits: &Limits, goroutines: u16) -> Result<Parts, u32> {
        let mut at = std::ptr::null_mut();
        // SAFETY: all pointers are of live values; of the capacities 0 elements are looked at.
        let why = unsafe { gmp_parts_open(limits, goroutines, NO_CHANNELS.as_ptr(), 0, &mut at) };
        if why == 0 {
            Ok(Parts(Handle(at)))
        } else {
            Err(why)
        }
    }

    /// The text of the next part: of the piece that the run handed out last; else the number of the refusal.
    pub fn next(&mut self, core: &mut Core) -> Result<String, u32> {
        // SAFETY: both handles are open, since only `drop` closes them, and this is the only call on each.
        let why = unsafe { gmp_parts_write(&mut self.0, &mut core.0) };
        if why != 0 {
            return Err(why);
        }
        // SAFETY: the handle is open, and this is the only call on it; the buffer has as many bytes as its count says.
        whole(|buffer, len| unsafe { gmp_parts_text(&mut self.0, buffer.as_mut_ptr(), buffer.len(), len) })
    }
}

impl Drop for Parts {
    fn drop(&mut self) {
        // SAFETY: the handle is open, and no copy of it is used afterwards.
        unsafe { gmp_parts_close(self.0) }
    }
}

/// The whole of a text of which a function writes as much as there is room for, and says how long it is; else the number of its
/// refusal.
fn whole(mut write: impl FnMut(&mut [u8], &mut u64) -> u32) -> Result<String, u32> {
    let mut text = vec![];
    for _ in 0..2 {
        let mut len = 0;
        let why = write(&mut text, &mut len);
        if why != 0 {
            return Err(why);
        }
        // The first time it is only told how long the text is.
        text.resize(usize::try_from(len).map_err(|_| OUT_OF_MEMORY)?, 0);
    }
    Ok(String::from_utf8(text).expect("the texts of the library are ASCII"))
}

/// Where the proved library gets its memory: from C's malloc.
mod heap {
    /// What an attempt came to; the pointer is never null.
    #[repr(C)]
    struct Tried {
        ok: u64,
        at: *mut u8,
    }

    unsafe extern "C" {
        fn malloc(size: usize) -> *mut u8;
        fn realloc(at: *mut u8, size: usize) -> *mut u8;
        fn free(at: *mut u8);
    }

    fn tried(at: *mut u8) -> Tried {
        if at.is_null() {
            Tried { ok: 0, at: std::ptr::without_provenance_mut(16) }
        } else {
            Tried { ok: 1, at }
        }
    }

    #[unsafe(no_mangle)]
    extern "C" fn rattle_alloc(size: usize, align: usize) -> Tried {
        // SAFETY: malloc takes any size. The library asks for no alignment above malloc's.
        tried(unsafe { malloc(if size == 0 { align } else { size }) })
    }

    #[unsafe(no_mangle)]
    unsafe extern "C" fn rattle_realloc(at: *mut u8, _kept: usize, size: usize, align: usize) -> Tried {
        // SAFETY: the library hands in what `rattle_alloc` or this function gave, once.
        tried(unsafe { realloc(at, if size == 0 { align } else { size }) })
    }

    #[unsafe(no_mangle)]
    unsafe extern "C" fn rattle_dealloc(at: *mut u8) {
        // SAFETY: the library hands in what `rattle_alloc` or `rattle_realloc` gave, once.
        unsafe { free(at) }
    }
}
