//! The seven calls of the core.

use crate::declared::*;
use crate::{lent, Answer};
use std::mem::MaybeUninit;

/// The words that a core needs.
pub const WORDS: usize = 16_384;

/// The right to push to a queue from 0 to 3, and the right to pop.
pub const fn may_push(queue: u32) -> u32 {
    1 << (2 * queue)
}

pub const fn may_pop(queue: u32) -> u32 {
    2 << (2 * queue)
}

pub fn open(words: &mut [u32], length: u32, segments: u32) -> Answer {
    open_unset(lent(words), length, segments)
}

/// The same on words that nobody has written yet.
pub fn open_unset(words: &mut [MaybeUninit<u32>], length: u32, segments: u32) -> Answer {
    Answer::of(unsafe { hq_open(words.as_mut_ptr().cast(), words.len(), length, segments) })
}

pub fn spawn(words: &mut [u32], task: u32, rights: u32) -> Answer {
    Answer::of(unsafe { hq_spawn(words.as_mut_ptr(), words.len(), task, rights) })
}

/// A run of values, all of them or none; the value is the last one, 0 for a run
/// of none.
pub fn push(words: &mut [u32], task: u32, queue: u32, values: &[u32]) -> Answer {
    let (words, len) = (words.as_mut_ptr(), words.len());
    Answer::of(unsafe { hq_push(words, len, task, queue, values.as_ptr(), values.len()) })
}

/// The next value; `Answer::EMPTY` where none stands before the call, in the order
/// of a run without overlap.
pub fn take(words: &mut [u32], task: u32, queue: u32) -> Answer {
    Answer::of(unsafe { hq_take(words.as_mut_ptr(), words.len(), task, queue, 0) })
}

/// The same, but the value stays queued: no word changes.
pub fn peek(words: &mut [u32], task: u32, queue: u32) -> Answer {
    Answer::of(unsafe { hq_take(words.as_mut_ptr(), words.len(), task, queue, 1) })
}

pub fn sync(words: &mut [u32], task: u32) -> Answer {
    Answer::of(unsafe { hq_sync(words.as_mut_ptr(), words.len(), task) })
}

pub fn finish(words: &mut [u32], task: u32) -> Answer {
    Answer::of(unsafe { hq_finish(words.as_mut_ptr(), words.len(), task) })
}

pub fn left(words: &mut [u32], queue: u32, index: u32) -> Answer {
    Answer::of(unsafe { hq_left(words.as_mut_ptr(), words.len(), queue, index) })
}
