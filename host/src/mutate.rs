//! Mutations of both memories, guided by the layout: a word changed to one that
//! looks likely there, two words of one kind exchanged, a record copied over
//! another, a view moved. Some of the mutated memories still pass.

use crate::damage::{damage, plain_damage, some_task};
use crate::layout::*;
use crate::random::Random;
use crate::runner::RECORD;
use crate::sample::any_word;

/// What a word of the core's memory is.
#[derive(Clone, Copy, Debug, PartialEq, Eq)]
enum Kind {
    Header,
    Height,
    FreeSegment,
    FreeTask,
    Status,
    Rights,
    /// Parent, older, younger or youngest: the word of the record.
    Link(usize),
    QueueHead,
    Head,
    Tail,
    First,
    Count,
    Next,
    Value,
}

const KINDS: [Kind; 17] = [
    Kind::Header,
    Kind::Height,
    Kind::FreeSegment,
    Kind::FreeTask,
    Kind::Status,
    Kind::Rights,
    Kind::Link(PARENT),
    Kind::Link(OLDER),
    Kind::Link(YOUNGER),
    Kind::Link(YOUNGEST),
    Kind::QueueHead,
    Kind::Head,
    Kind::Tail,
    Kind::First,
    Kind::Count,
    Kind::Next,
    Kind::Value,
];

/// One to four mutations, mostly one.
pub fn mutate(r: &mut Random, core: &mut [u32], runner: &mut [u32]) {
    for _ in 0..r.pick(&[1, 1, 1, 1, 1, 2, 2, 3, 4]) {
        one(r, core, runner);
    }
}

fn one(r: &mut Random, core: &mut [u32], runner: &mut [u32]) {
    match r.below(20) {
        0..=6 => change(r, core),
        7..=10 => exchange(r, core),
        11 | 12 => copy_record(r, core, runner),
        13..=15 => move_view(r, core),
        16 | 17 => change_runner(r, runner),
        18 => damage(r, core),
        _ => plain_damage(r, core),
    }
}

fn opened(m: &[u32]) -> u32 {
    segments(m).clamp(1, MOST_SEGMENTS)
}

/// The address of a word of that kind.
fn address(r: &mut Random, m: &[u32], kind: Kind) -> usize {
    let t = task(some_task(r, m));
    let s = segment(r.below(opened(m)));
    match kind {
        Kind::Header => r.pick(&[LENGTH, SEGMENTS]),
        Kind::Height => r.pick(&[FREE_SEGMENTS, FREE_TASKS]),
        Kind::FreeSegment => segment_place(stack_place(r, get(m, FREE_SEGMENTS), MOST_SEGMENTS)),
        Kind::FreeTask => task_place(stack_place(r, get(m, FREE_TASKS), TASKS)),
        Kind::Status => t + STATUS,
        Kind::Rights => t + RIGHTS,
        Kind::Link(word) => t + word,
        Kind::QueueHead => t + QUEUE_HEADS + r.below(QUEUES) as usize,
        Kind::Head => t + CHILDREN_HEADS + r.below(12) as usize,
        Kind::Tail => t + CHILDREN_HEADS + TAIL_FROM_HEAD + r.below(12) as usize,
        Kind::First => s + FIRST,
        Kind::Count => s + COUNT,
        Kind::Next => s + NEXT,
        Kind::Value => VALUES + r.below(VALUE_WORDS) as usize,
    }
}

/// A place of a stack with room for `most`: an entry, or one of the two above.
fn stack_place(r: &mut Random, height: u32, most: u32) -> u32 {
    r.below(height.min(most) + 2).min(most - 1)
}

/// A word that looks likely at an address of that kind.
fn likely(r: &mut Random, m: &[u32], kind: Kind, now: u32) -> u32 {
    match r.below(8) {
        0 => return any_word(r),
        1 => return r.pick(&[now.wrapping_add(1), now.wrapping_sub(1)]),
        _ => {}
    }
    let (length, opened) = (length(m), opened(m));
    match kind {
        Kind::Header => r.pick(&[0, 1, now / 2, now.wrapping_mul(2), 4, 64, 65, 256, 257]),
        Kind::Height => {
            let any = r.below(opened + 1);
            r.pick(&[0, any, opened, opened + 1, TASKS - 1, TASKS])
        }
        Kind::FreeSegment => r.below(opened + 1),
        Kind::FreeTask => r.below(TASKS + 1),
        Kind::Status => r.below(4),
        Kind::Rights => {
            let (fewer, bit) = (now & r.word(), 1 << r.below(9));
            r.pick(&[fewer, now ^ bit, now | bit, 0, ALL_RIGHTS])
        }
        Kind::Link(_) => {
            let (near, any) = (some_task(r, m), r.below(TASKS + 1));
            r.pick(&[NONE, near, near, any])
        }
        Kind::QueueHead | Kind::Head | Kind::Tail | Kind::Next => {
            let any = r.below(opened + 1);
            r.pick(&[NONE, NL, any, any])
        }
        Kind::First | Kind::Count => {
            let any = r.below(length.clamp(1, MOST_LENGTH));
            r.pick(&[0, any, any, length.wrapping_sub(1), length])
        }
        Kind::Value => r.word(),
    }
}

fn change(r: &mut Random, m: &mut [u32]) {
    let kind = r.pick(&KINDS);
    let at = address(r, m, kind);
    let word = likely(r, m, kind, get(m, at));
    put(m, at, word);
}

fn exchange(r: &mut Random, m: &mut [u32]) {
    let kind = r.pick(&KINDS);
    let (a, b) = (address(r, m, kind), address(r, m, kind));
    let (at_a, at_b) = (get(m, a), get(m, b));
    put(m, a, at_b);
    put(m, b, at_a);
}

/// A segment's record, a task's, a task's with its words of the runner, or
/// these words alone.
fn copy_record(r: &mut Random, core: &mut [u32], runner: &mut [u32]) {
    let which = r.below(4);
    if which == 0 {
        let (from, to) = (r.below(opened(core)), r.below(opened(core)));
        return copy(core, segment(from), segment(to), SEGMENT_WORDS);
    }
    let (from, any) = (some_task(r, core), r.below(TASKS));
    let near = some_task(r, core);
    let to = r.pick(&[near, near, any]);
    if which <= 2 {
        copy(core, task(from), task(to), TASK_WORDS);
    }
    if which >= 2 {
        copy(runner, RECORD * from as usize, RECORD * to as usize, RECORD);
    }
}

fn copy(m: &mut [u32], from: usize, to: usize, words: usize) {
    for i in 0..words {
        let word = get(m, from + i);
        put(m, to + i, word);
    }
}

/// A view of one queue goes to another place, mostly of the same task, and
/// leaves an empty one.
fn move_view(r: &mut Random, m: &mut [u32]) {
    let (q, from, other) = (r.below(QUEUES), some_task(r, m), some_task(r, m));
    let to = r.pick(&[from, from, from, other]);
    let kinds = [children_view, user_view, right_view];
    let (from, to) = (r.pick(&kinds)(from, q), r.pick(&kinds)(to, q));
    for (from, to) in [(from, to), (from + TAIL_FROM_HEAD, to + TAIL_FROM_HEAD)] {
        let word = get(m, from);
        put(m, from, NONE);
        put(m, to, word);
    }
}

/// A word of the runner changed, or the same word of two tasks exchanged.
fn change_runner(r: &mut Random, runner: &mut [u32]) {
    let word = r.below(RECORD as u32) as usize;
    let place = |r: &mut Random| {
        let t = r.pick(&[6, 6, TASKS]);
        RECORD * r.below(t) as usize + word
    };
    let (a, b) = (place(r), place(r));
    let (at_a, at_b) = (get(runner, a), get(runner, b));
    if r.chance(25) {
        put(runner, a, at_b);
        put(runner, b, at_a);
    } else {
        let (small, any) = (r.below(12), any_word(r));
        let near = r.pick(&[at_a.wrapping_add(1), at_a.wrapping_sub(1)]);
        put(runner, a, r.pick(&[near, small, any]));
    }
}

#[cfg(test)]
mod tests {
    use super::*;
    use crate::fast;
    use crate::runner::RUNNER;
    use crate::sample::reached;

    /// Some mutated memories pass and some do not, whatever the words are.
    #[test]
    fn some_pass() {
        let r = &mut Random::new(7);
        let (mut passed, times) = (0, 2_000);
        for _ in 0..times {
            let (mut core, mut runner) = (reached(r), vec![0; RUNNER]);
            mutate(r, &mut core, &mut runner);
            passed += u32::from(fast::hold(&core));
            mutate(r, &mut core[..100], &mut []);
        }
        assert!((times / 10..times).contains(&passed), "{passed} passed");
    }
}
