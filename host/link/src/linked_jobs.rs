//! The library's job test and serial runner with their answers in one number,
//! and the model's answers in that form.

use host::plain::Reply;
use host::runner::Stepped;
use host::serial::End;
pub use hyperqueue::jobs::{queues, ANSWERS, WORKING};
use hyperqueue::{jobs, Answer};

pub fn job_test(job: &[u8]) -> u64 {
    jobs::test(job).packed()
}

pub fn run_serially(job: &[u8], working: &mut [u32], answers: &mut [u32]) -> u64 {
    jobs::run_serially(job, working, answers).packed()
}

/// An end and a number of steps as the library gives them.
pub fn packed(end: End, steps: usize) -> u64 {
    let status = match end {
        End::Ended => 0,
        End::Spent => Answer::SPENT,
        End::Refused(number) => number,
    };
    u64::from(status) << 32 | steps as u64
}

/// The three words of a step's answer.
pub fn answer_words(task: u32, reply: Reply) -> [u32; 3] {
    let step = Stepped::Moved(reply);
    [task, step.status(), step.value()]
}
