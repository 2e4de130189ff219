//! The proved queue core for hosts in Rust. `include/hyperqueue.h` says what
//! each call does; here they are safe functions on slices: any contents, any
//! lengths and any arguments give an answer, and nothing outside the slices is
//! read or written.

pub mod core;
mod declared;
pub mod jobs;
pub mod runner;
pub mod simulation;
pub mod traces;

use std::mem::MaybeUninit;

/// Words that are written already, lent as words that need not be.
fn lent<W: Copy>(words: &mut [W]) -> &mut [MaybeUninit<W>] {
    // The library writes whole words and nothing else.
    unsafe { &mut *(words as *mut [W] as *mut [MaybeUninit<W>]) }
}

/// What a call answers: a status, and a value that is 0 unless the call moved or
/// a trace differs.
#[must_use]
#[derive(Clone, Copy, Debug, PartialEq, Eq)]
pub struct Answer {
    pub status: u32,
    pub value: u32,
}

impl Answer {
    pub const MOVED: u32 = 0;
    pub const WAITS: u32 = 32;
    pub const EMPTY: u32 = 33;
    /// Of a job's step alone: it asked, and a value is queued.
    pub const NOT_EMPTY: u32 = 34;
    /// A run without overlap, or a simulation, that made all its steps and has not
    /// ended.
    pub const SPENT: u32 = 35;
    /// The refusal of a simulation: workers are 1 to 16.
    pub const WORKERS_WRONG: u32 = 14;
    /// A trace, with the first line that differs as the value; one that agrees;
    /// the refusal of one that has another form.
    pub const DIFFERS: u32 = 36;
    pub const AGREES: u32 = 37;
    pub const TRACE_FORM: u32 = 13;

    /// A packed answer taken apart.
    pub fn of(number: u64) -> Answer {
        Answer {
            status: (number >> 32) as u32,
            value: number as u32,
        }
    }

    /// Status and value as one number, as hosts in C get them.
    pub fn packed(self) -> u64 {
        u64::from(self.status) << 32 | u64::from(self.value)
    }

    /// The value of a call that is answered `MOVED`. A take that is answered `EMPTY`
    /// has moved too, and has none.
    pub fn moved(self) -> Option<u32> {
        (self.status == Answer::MOVED).then_some(self.value)
    }
}
