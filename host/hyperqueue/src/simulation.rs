//! A job simulated with a number of workers.

use crate::declared::*;
use crate::{lent, Answer};
use std::mem::MaybeUninit;

/// Words for working, beside those of the core and of the runner.
pub const WORDS: usize = 525_718;
/// So many of them, the first, have contents that mean something.
pub const ENDS: usize = 128;
/// Workers are 1 to 16.
pub const MOST_WORKERS: u32 = 16;

/// How a simulation went.
#[must_use]
#[derive(Clone, Copy, Debug, PartialEq, Eq)]
pub enum Simulated {
    /// The top task has finished. The work is the ticks of all instructions, the span
    /// those of the longest chain of instructions each of which needs the one before.
    Ended {
        ticks: u64,
        work: u64,
        span: u64,
    },
    /// 65,535 effects have fallen, and the top is unfinished.
    Spent,
    /// No record (8) or no segment (9) was free for an instruction, when a worker
    /// came to it or when its effect fell.
    Stopped(u32),
    /// A length with 1, the bytes with 10 to 12, the workers with 14.
    Refused(u32),
}

impl Simulated {
    pub fn of(answer: Answer, [ticks, work, span]: [u64; 3]) -> Simulated {
        match answer.status {
            Answer::MOVED => Simulated::Ended { ticks, work, span },
            Answer::SPENT => Simulated::Spent,
            number @ (8 | 9) => Simulated::Stopped(number),
            number => Simulated::Refused(number),
        }
    }
}

/// The ticks that so many workers use at most: work plus W - 1 times span, divided by
/// W, rounded down. None for no workers.
pub fn ceiling(workers: u32, work: u64, span: u64) -> Option<u64> {
    let workers = u64::from(workers);
    let all = work + workers.checked_sub(1)? * span;
    Some(all / workers)
}

/// Simulates the job. A refusal leaves core, runner and the first `ENDS` words of
/// `working` as they were. Else core and runner are as after the last effect, and
/// `working[t]`, of the first `ENDS`, is the tick at which the effect of task t falls, 0
/// where it has no instruction under way. The other words of `working` mean nothing.
pub fn simulate(
    job: &[u8],
    workers: u32,
    core: &mut [u32],
    runner: &mut [u32],
    working: &mut [u32],
) -> Simulated {
    let mut out = [0; 3];
    let answer = simulate_out(job, workers, core, runner, working, &mut out);
    Simulated::of(answer, out)
}

/// The same with the answer as hosts in C get it: ticks, work and span in the three
/// places lent, zeros where the top has not finished.
pub fn simulate_out(
    job: &[u8],
    workers: u32,
    core: &mut [u32],
    runner: &mut [u32],
    working: &mut [u32],
    out: &mut [u64; 3],
) -> Answer {
    let lent_out = lent(out).try_into().expect("three places");
    simulate_unset(
        job,
        workers,
        lent(core),
        lent(runner),
        lent(working),
        lent_out,
    )
}

/// The same on words that nobody has written yet.
pub fn simulate_unset(
    job: &[u8],
    workers: u32,
    core: &mut [MaybeUninit<u32>],
    runner: &mut [MaybeUninit<u32>],
    working: &mut [MaybeUninit<u32>],
    out: &mut [MaybeUninit<u64>; 3],
) -> Answer {
    Answer::of(unsafe {
        hq_simulate(
            job.as_ptr(),
            job.len(),
            workers,
            core.as_mut_ptr().cast(),
            core.len(),
            runner.as_mut_ptr().cast(),
            runner.len(),
            working.as_mut_ptr().cast(),
            working.len(),
            out.as_mut_ptr().cast(),
        )
    })
}
