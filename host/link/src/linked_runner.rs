//! The library's runner with its answers in one number, and the model's
//! answers in that form.

use host::runner::{Ready, Stepped};
use hyperqueue::runner;
pub use hyperqueue::runner::Map;

pub fn open(job: &[u8], core: &mut [u32], words: &mut [u32]) -> u64 {
    runner::open(job, core, words).packed()
}

pub fn step(job: &[u8], core: &mut [u32], words: &mut [u32], task: u32) -> u64 {
    runner::step(job, core, words, task).packed()
}

pub fn run(
    job: &[u8],
    core: &mut [u32],
    words: &mut [u32],
    tasks: &[u32],
    answers: &mut [u64],
) -> u64 {
    runner::run(job, core, words, tasks, answers).packed()
}

pub fn ready(job: &[u8], core: &[u32], words: &[u32], out: &mut Map) -> u64 {
    runner::ready(job, core, words, out).packed()
}

/// The model's answer as the library gives it.
pub fn packed(answer: Stepped) -> u64 {
    u64::from(answer.status()) << 32 | u64::from(answer.value())
}

/// The model's map as the library gives it.
pub fn map_words(map: Ready) -> Map {
    let [a, b, c, d] = map.words;
    [a, b, c, d, map.count, map.lowest.unwrap_or(u32::MAX)]
}
