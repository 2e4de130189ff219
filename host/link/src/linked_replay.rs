//! The library's replay with its answer in one number, and the model's answer
//! in that form.

use host::replay::Judged;
use hyperqueue::traces;

pub fn replay(job: &[u8], trace: &[u8], core: &mut [u32], words: &mut [u32]) -> u64 {
    traces::replay(job, trace, core, words).packed()
}

/// The model's answer as the library gives it.
pub fn packed(judged: Judged) -> u64 {
    u64::from(judged.status()) << 32 | u64::from(judged.value())
}
