//! The replay of a recorded run.

use crate::declared::*;
use crate::{lent, Answer};
use std::mem::MaybeUninit;

/// The most lines of a trace; more are refused with 13.
pub const MOST_LINES: usize = 65_535;

/// `Answer::AGREES`, `Answer::DIFFERS` with the number of the line, or a
/// refusal. The words are for working: a refusal leaves them as they were, and
/// after another answer they mean nothing.
pub fn replay(job: &[u8], trace: &[u8], core: &mut [u32], runner: &mut [u32]) -> Answer {
    replay_unset(job, trace, lent(core), lent(runner))
}

/// The same on words that nobody has written yet.
pub fn replay_unset(
    job: &[u8],
    trace: &[u8],
    core: &mut [MaybeUninit<u32>],
    runner: &mut [MaybeUninit<u32>],
) -> Answer {
    Answer::of(unsafe {
        hq_replay(
            job.as_ptr(),
            job.len(),
            trace.as_ptr(),
            trace.len(),
            core.as_mut_ptr().cast(),
            core.len(),
            runner.as_mut_ptr().cast(),
            runner.len(),
        )
    })
}
