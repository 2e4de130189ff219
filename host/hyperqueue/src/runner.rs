//! A job's run with overlap: opening it, a step of a task, a list of steps, the
//! ready map.

use crate::declared::*;
use crate::{lent, Answer};
use std::mem::MaybeUninit;

/// The words that the runner needs beside the core's.
pub const WORDS: usize = 384;

/// The statuses of a step that moved, in runs with overlap and without.
pub const SPAWNED: u32 = 40;
pub const PUSHED: u32 = 41;
pub const TOOK: u32 = 42;
pub const FINISHED: u32 = 43;
pub const MOVED: u32 = 44;

pub fn open(job: &[u8], core: &mut [u32], runner: &mut [u32]) -> Answer {
    open_unset(job, lent(core), lent(runner))
}

/// The same on words that nobody has written yet.
pub fn open_unset(
    job: &[u8],
    core: &mut [MaybeUninit<u32>],
    runner: &mut [MaybeUninit<u32>],
) -> Answer {
    Answer::of(unsafe {
        hq_job_open(
            job.as_ptr(),
            job.len(),
            core.as_mut_ptr().cast(),
            core.len(),
            runner.as_mut_ptr().cast(),
            runner.len(),
        )
    })
}

pub fn step(job: &[u8], core: &mut [u32], runner: &mut [u32], task: u32) -> Answer {
    Answer::of(unsafe {
        hq_job_step(
            job.as_ptr(),
            job.len(),
            core.as_mut_ptr(),
            core.len(),
            runner.as_mut_ptr(),
            runner.len(),
            task,
        )
    })
}

/// Opens the job afresh and makes a step of each task in the list. Each step's
/// answer stands packed in its place, `Answer::of` takes it apart.
pub fn run(
    job: &[u8],
    core: &mut [u32],
    runner: &mut [u32],
    tasks: &[u32],
    answers: &mut [u64],
) -> Answer {
    run_unset(job, lent(core), lent(runner), tasks, lent(answers))
}

/// The same on words that nobody has written yet.
pub fn run_unset(
    job: &[u8],
    core: &mut [MaybeUninit<u32>],
    runner: &mut [MaybeUninit<u32>],
    tasks: &[u32],
    answers: &mut [MaybeUninit<u64>],
) -> Answer {
    Answer::of(unsafe {
        hq_job_run(
            job.as_ptr(),
            job.len(),
            core.as_mut_ptr().cast(),
            core.len(),
            runner.as_mut_ptr().cast(),
            runner.len(),
            tasks.as_ptr(),
            tasks.len(),
            answers.as_mut_ptr().cast(),
            answers.len(),
        )
    })
}

/// The ready map, the number of set bits, the lowest ready task or the mark for
/// none.
pub type Map = [u32; 6];

/// The answer, with the map in the six words lent.
pub fn ready(job: &[u8], core: &[u32], runner: &[u32], out: &mut Map) -> Answer {
    Answer::of(unsafe {
        hq_job_ready(
            job.as_ptr(),
            job.len(),
            core.as_ptr(),
            core.len(),
            runner.as_ptr(),
            runner.len(),
            out.as_mut_ptr(),
        )
    })
}
