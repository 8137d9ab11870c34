//! The proved routines, as the archives export them: service the reset and the single event,
//! planner the list and what it needs.
use crate::event::{Answer, Event};

/// The bits of a filter.
pub const PLANES: usize = 16;

#[repr(C)]
#[derive(Clone, Copy)]
pub struct Channel {
    pub mode: u32,
    pub preloads: [u32; 2],
    pub compares: [u32; 2],
    pub route: u32,
    pub mask: u32,
    pub count: u32,
    pub running: bool,
    pub armed: bool,
    pub second: bool,
    pub kept: u32,
    pub extout: bool,
    pub carry: i32,
    pub counts: [u32; 16],
    pub timestamps: [u32; 16],
    pub reasons: [u32; 16],
    pub held: u32,
    pub lost: u32,
}

#[repr(C)]
#[derive(Clone, Copy)]
pub struct Pins {
    pub level: u64,
    pub driven: u64,
    pub own: u64,
    pub safedata: u64,
    pub safeenable: u64,
    pub source0: u64,
    pub source1: u64,
    pub source2: u64,
    pub filters: Filters,
}

/// Bit p of plane j is bit j of the number of pin p.
#[repr(C)]
#[derive(Clone, Copy)]
pub struct Filters {
    pub filter: [u64; PLANES],
    pub wait: [u64; PLANES],
}

#[repr(C)]
#[derive(Clone, Copy)]
pub struct Virtuals {
    pub own: u64,
    pub safedata: u64,
    pub safeenable: u64,
}

#[repr(C)]
#[derive(Clone, Copy)]
pub struct Clock {
    pub prescaler: u32,
    pub timestamp: u32,
}

#[repr(C)]
#[derive(Clone, Copy)]
pub struct Watchdog {
    pub intervals: [u32; 3],
    pub rests: [u32; 3],
    pub expired: u32,
    pub enabled: bool,
}

#[repr(C)]
#[derive(Clone, Copy)]
pub struct Safety {
    pub control: u32,
    pub writes: bool,
    pub safemode: bool,
}

#[repr(C)]
#[derive(Clone, Copy)]
pub struct Core {
    pub clock: Clock,
    pub watchdog: Watchdog,
    pub safety: Safety,
}

#[repr(C)]
#[derive(Clone, Copy)]
pub struct Board {
    pub channels: [Channel; 6],
    pub pins: Pins,
    pub virtuals: Virtuals,
    pub core: Core,
}

const _: () = assert!(std::mem::size_of::<Board>() == 1880);

/// What one event leaves.
#[repr(C)]
#[derive(Clone, Copy)]
pub struct Outcome {
    pub board: Board,
    pub answer: Answer,
}

/// What a list of events leaves: result 0, 10 or 11, and how many events were answered.
#[repr(C)]
#[derive(Clone, Copy)]
pub struct Ran {
    pub board: Board,
    pub result: u8,
    pub answered: usize,
}

/// What a list of records needs as a history: result 0 or 11, the blocks of its file, the accepted
/// steps, the lines of its log and the most bytes of these.
#[repr(C)]
#[derive(Clone, Copy, Debug, Default, PartialEq, Eq)]
pub struct Needs {
    pub result: u8,
    pub blocks: u32,
    pub steps: u32,
    pub lines: u32,
    pub bytes: u32,
}

extern "C" {
    fn puntarys_reset() -> Board;
    fn puntarys_apply(board: Board, event: Event) -> Outcome;
    fn puntarys_run(
        board: Board,
        records: *const u8,
        length: usize,
        answers: *mut u8,
        room: usize,
    ) -> Ran;
    fn puntarys_needs(records: *const u8, length: usize) -> Needs;
}

/// The board at reset.
pub fn reset() -> Board {
    unsafe { puntarys_reset() }
}

/// One event on any board; a field outside its range counts as its value at reset.
#[inline(always)]
pub fn apply(board: Board, event: Event) -> Outcome {
    unsafe { puntarys_apply(board, event) }
}

/// A list of records, with the bytes of an answer for each. A field of the board outside its range
/// counts as its value at reset; a refused list gives the board back as it is.
pub fn run(board: Board, records: &[u8], answers: &mut [u8]) -> Ran {
    unsafe {
        puntarys_run(
            board,
            records.as_ptr(),
            records.len(),
            answers.as_mut_ptr(),
            answers.len(),
        )
    }
}

/// What a list of records needs as a history.
pub fn needs(records: &[u8]) -> Needs {
    unsafe { puntarys_needs(records.as_ptr(), records.len()) }
}
