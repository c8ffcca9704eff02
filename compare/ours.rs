//! Our leaves, and the reader on starts and ends, from the static library of `crates/exports_c`, behind safe functions.

use crate::mivurakol::{Answer, Rooms};

#[repr(C)]
#[derive(Clone, Copy)]
struct Mark {
    kind: u32,
    len: usize,
}

#[repr(C)]
#[derive(Clone, Copy)]
struct State {
    pos: usize,
    escape: bool,
    verbatim: bool,
    next: Mark,
}

#[repr(C)]
struct Step {
    token: Mark,
    state: State,
}

#[repr(C)]
struct Scanned {
    found: bool,
    len: usize,
}

#[repr(C)]
struct Counts {
    first: usize,
    second: usize,
}

extern "C" {
    fn mivurakol_cursor(pos: usize, verbatim: bool) -> State;
    fn mivurakol_peek(src: *const u8, len: usize, s: State) -> Step;
    fn mivurakol_next(src: *const u8, len: usize, s: State) -> Step;
    fn mivurakol_autolink(src: *const u8, len: usize, from: usize) -> Scanned;
    fn mivurakol_symbol(src: *const u8, len: usize, from: usize) -> Scanned;
    fn mivurakol_footnote(src: *const u8, len: usize, from: usize) -> Scanned;
    fn mivurakol_raw_format(src: *const u8, len: usize, from: usize) -> Scanned;
    fn mivurakol_validate(bytes: *const u8, len: usize, state: u32) -> u32;
    fn mivurakol_hyphens(len: usize) -> Counts;
    fn mivurakol_periods(len: usize) -> Counts;
    fn mivurakol_read_numbers(
        text: *const u8,
        text_len: usize,
        starts: *const usize,
        starts_len: usize,
        ends: *const usize,
        ends_len: usize,
        reading: u32,
        events: *mut u32,
        events_len: usize,
        queue: *mut u32,
        queue_len: usize,
        openers: *mut u32,
        openers_len: usize,
        labels: *mut u8,
        labels_len: usize,
    ) -> Answer;
}

/// Reads a sheet: line i runs from `starts[i]` to before `ends[i]`.
pub fn read(text: &[u8], starts: &[usize], ends: &[usize], reading: u32, rooms: &mut Rooms) -> Answer {
    let Rooms { events, queue, openers, labels } = rooms;
    // SAFETY: each pointer is that of a slice, with its length, and the four that are written to are borrowed mutably.
    unsafe {
        mivurakol_read_numbers(
            text.as_ptr(),
            text.len(),
            starts.as_ptr(),
            starts.len(),
            ends.as_ptr(),
            ends.len(),
            reading,
            events.as_mut_ptr(),
            events.len(),
            queue.as_mut_ptr(),
            queue.len(),
            openers.as_mut_ptr(),
            openers.len(),
            labels.as_mut_ptr(),
            labels.len(),
        )
    }
}

pub struct Cursor(State);

impl Cursor {
    pub fn new(pos: usize, verbatim: bool) -> Self {
        Cursor(unsafe { mivurakol_cursor(pos, verbatim) })
    }

    pub fn place(&self) -> usize {
        self.0.pos
    }

    pub fn set_verbatim(&mut self, verbatim: bool) {
        self.0.verbatim = verbatim;
    }

    pub fn peek(&mut self, src: &[u8]) -> (u32, usize) {
        let step = unsafe { mivurakol_peek(src.as_ptr(), src.len(), self.0) };
        self.0 = step.state;
        (step.token.kind, step.token.len)
    }

    pub fn next(&mut self, src: &[u8]) -> (u32, usize) {
        let step = unsafe { mivurakol_next(src.as_ptr(), src.len(), self.0) };
        self.0 = step.state;
        (step.token.kind, step.token.len)
    }
}

/// A scan ahead: of a line, from a place.
#[derive(Clone, Copy, Debug)]
pub enum Scan {
    Autolink,
    Symbol,
    Footnote,
    RawFormat,
}

pub fn scan(what: Scan, src: &[u8], from: usize) -> Option<usize> {
    let scanned = unsafe {
        match what {
            Scan::Autolink => mivurakol_autolink(src.as_ptr(), src.len(), from),
            Scan::Symbol => mivurakol_symbol(src.as_ptr(), src.len(), from),
            Scan::Footnote => mivurakol_footnote(src.as_ptr(), src.len(), from),
            Scan::RawFormat => mivurakol_raw_format(src.as_ptr(), src.len(), from),
        }
    };
    scanned.found.then_some(scanned.len)
}

/// The state of the validator behind some bytes, from a state: numbers in the order of the source's `State`. A state that is decided stays.
pub fn validate(bytes: &[u8], state: u32) -> u32 {
    unsafe { mivurakol_validate(bytes.as_ptr(), bytes.len(), state) }
}

/// The em and en dashes of a run of hyphens.
pub fn hyphens(len: usize) -> (usize, usize) {
    let counts = unsafe { mivurakol_hyphens(len) };
    (counts.first, counts.second)
}

/// The ellipses of a run of periods, and the periods that are left.
pub fn periods(len: usize) -> (usize, usize) {
    let counts = unsafe { mivurakol_periods(len) };
    (counts.first, counts.second)
}
