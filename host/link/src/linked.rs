//! The seven calls of the library as the model's, each with its answer in one
//! number.

use crate::page_guarded::PageGuarded;
use host::answer::Answer;
use host::call::Call;
use hyperqueue::core;

/// Makes the call on the library.
pub fn make(call: &Call, words: &mut [u32]) -> u64 {
    let answer = match *call {
        Call::Open { length, segments } => core::open(words, length, segments),
        Call::Spawn { task, rights } => core::spawn(words, task, rights),
        Call::Push {
            task,
            queue,
            ref values,
        } => core::push(words, task, queue, values),
        Call::Take { task, queue, keep } => match keep {
            false => core::take(words, task, queue),
            true => core::peek(words, task, queue),
        },
        Call::Sync { task } => core::sync(words, task),
        Call::Finish { task } => core::finish(words, task),
        Call::Left { queue, index } => core::left(words, queue, index),
    };
    answer.packed()
}

/// The same, with the values of a run lent so that nothing outside them can be
/// read, and none of them written.
pub fn make_guarded(call: &Call, words: &mut [u32]) -> u64 {
    match call.as_push() {
        Some((task, queue, values)) => {
            core::push(words, task, queue, PageGuarded::at_end(values).values()).packed()
        }
        None => make(call, words),
    }
}

/// The model's answer as the library gives it.
pub fn packed(answer: Answer) -> u64 {
    u64::from(answer.number()) << 32 | u64::from(answer.value())
}
