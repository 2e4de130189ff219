//! The job test, and a job's run without overlap.

use crate::declared::*;
use crate::{lent, Answer};
use std::mem::MaybeUninit;

/// Words for working and for answers; any other numbers are refused with 1.
pub const WORKING: usize = 16_392;
pub const ANSWERS: usize = 196_605;
/// Values that a queue's ring holds.
const RING: usize = 4_096;

pub fn test(job: &[u8]) -> Answer {
    Answer::of(unsafe { hq_job_test(job.as_ptr(), job.len()) })
}

/// The value of the answer is the number of steps made.
pub fn run_serially(job: &[u8], working: &mut [u32], answers: &mut [u32]) -> Answer {
    run_serially_unset(job, lent(working), lent(answers))
}

/// The same on words that nobody has written yet.
pub fn run_serially_unset(
    job: &[u8],
    working: &mut [MaybeUninit<u32>],
    answers: &mut [MaybeUninit<u32>],
) -> Answer {
    Answer::of(unsafe {
        hq_run_serially(
            job.as_ptr(),
            job.len(),
            working.as_mut_ptr().cast(),
            working.len(),
            answers.as_mut_ptr().cast(),
            answers.len(),
        )
    })
}

/// The values of the four queues in the working words, which are `WORKING`.
pub fn queues(working: &[u32]) -> [Vec<u32>; 4] {
    [0, 1, 2, 3].map(|queue| {
        let first = working[4 * RING + 2 * queue] as usize;
        let count = working[4 * RING + 2 * queue + 1] as usize;
        let place = |index| RING * queue + (first + index) % RING;
        (0..count).map(|index| working[place(index)]).collect()
    })
}
