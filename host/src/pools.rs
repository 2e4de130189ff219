//! The stacks of free segments and free task records, and the ring of values
//! in a segment.

use crate::layout::*;

/// The task record that would be taken next.
pub fn next_free_task(m: &[u32]) -> Option<u32> {
    let below = get(m, FREE_TASKS).checked_sub(1)?;
    Some(get(m, task_place(below)))
}

/// Takes the next free segment, without a value and without a next. There is one.
pub fn take_segment(m: &mut [u32]) -> u32 {
    let below = get(m, FREE_SEGMENTS).saturating_sub(1);
    put(m, FREE_SEGMENTS, below);
    let s = get(m, segment_place(below));
    put(m, segment(s) + FIRST, 0);
    put(m, segment(s) + COUNT, 0);
    put(m, segment(s) + NEXT, NONE);
    s
}

/// Frees segment `s`. Its values and its spare word stay.
pub fn free_segment(m: &mut [u32], s: u32) {
    for word in [FIRST, COUNT, NEXT] {
        put(m, segment(s) + word, 0);
    }
    let height = get(m, FREE_SEGMENTS);
    put(m, segment_place(height), s);
    put(m, FREE_SEGMENTS, height.saturating_add(1));
}

/// Takes the next free task record off the stack.
pub fn take_task(m: &mut [u32]) {
    put(m, FREE_TASKS, get(m, FREE_TASKS).saturating_sub(1));
}

/// Clears and frees the record of task `t`.
pub fn free_task(m: &mut [u32], t: u32) {
    for word in 0..TASK_WORDS {
        put(m, task(t) + word, 0);
    }
    let height = get(m, FREE_TASKS);
    put(m, task_place(height), t);
    put(m, FREE_TASKS, height.saturating_add(1));
}

/// Place number `i`, at most `length`, of the ring that starts at place `first`,
/// which is below `length`. Total, so that no words can make it fail.
fn ring_place(first: u32, i: u32, length: u32) -> u32 {
    let sum = first.wrapping_add(i);
    if sum < length {
        sum
    } else {
        sum.wrapping_sub(length)
    }
}

/// Value number `i` of segment `s`, from 0.
pub fn value(m: &[u32], s: u32, i: u32) -> u32 {
    let place = ring_place(first(m, s), i, length(m));
    get(m, value_place(s, length(m), place))
}

/// How many values more segment `s` can hold.
pub fn room(m: &[u32], s: u32) -> usize {
    length(m).saturating_sub(count(m, s)) as usize
}

/// Stores values of the run behind the others of segment `s`, as many as it has
/// room for, and says how many.
pub fn store(m: &mut [u32], s: u32, run: &[u32]) -> usize {
    let (length, held) = (length(m), count(m, s));
    let stored = run.len().min(room(m, s));
    let at = ring_place(first(m, s), held, length);
    // The rest of the ring from its first free place on, then from place 0 on.
    let (on, over) = run[..stored].split_at(stored.min(length.saturating_sub(at) as usize));
    put_all(m, value_place(s, length, at), on);
    put_all(m, value_place(s, length, 0), over);
    put(m, segment(s) + COUNT, held + stored as u32);
    stored
}

/// Drops the first value of segment `s`, which has one.
pub fn drop_first(m: &mut [u32], s: u32) {
    let place = ring_place(first(m, s), 1, length(m));
    put(m, segment(s) + FIRST, place);
    put(m, segment(s) + COUNT, count(m, s).saturating_sub(1));
}
