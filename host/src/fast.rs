//! The memory rules in one pass, for speed. `rules` has their wording; tests
//! compare the two on good and on damaged memory.
//!
//! Why this says the same. The held segments are counted once, before a task
//! record is looked at: those opened that are not on the stack. They and the
//! entries of the stack are as many as were opened where none stands there
//! twice. Each segment gets a mark for every place it has: on the stack, inside
//! a chain, at the end of a chain. Chains have no more places than segments are
//! held and each segment has one, so each has exactly one: held segments are
//! named once, and no nexts form a ring. The order of the views
//! and one queue view for each queue make the tails as many as the chains, and
//! each end of a chain has a tail, so each has exactly one. The tree is walked
//! from the top along links that are tested where they are followed, and has as
//! many tasks as are not free.

use crate::layout::*;

type Words = [u32; WORDS];

// Marks of a segment.
const FREE_ONE: u8 = 1;
const INNER: u8 = 2;
const END: u8 = 4;
const TAIL: u8 = 8;

/// What the walk over the views has met so far.
struct Walk<'a> {
    m: &'a Words,
    opened: u32,
    marks: [u8; MOST_SEGMENTS as usize],
    /// How many segments are held, and how many places in chains were met.
    held: u32,
    placed: u32,
    /// Bit q: a queue view of queue q has a head.
    queues: u32,
    /// Bit q: the view met before, which is the next one in the paper's order,
    /// has a non-local head.
    nonlocal: u32,
}

impl Walk<'_> {
    fn mark(&mut self, s: u32, mark: u8) {
        self.marks[(s & 255) as usize] |= mark;
    }
}

/// Does this memory pass?
pub fn hold(m: &[u32]) -> bool {
    held(m).is_some()
}

/// How many segments are held, where this memory passes.
pub fn held(m: &[u32]) -> Option<u32> {
    let m = <&Words>::try_from(m).ok()?;
    if !numbers(m) {
        return None;
    }
    let mut marks = [0; MOST_SEGMENTS as usize];
    let held = count_held(m, &mut marks)?;
    if !segment_words(m) || !free_tasks(m) || !top(m) {
        return None;
    }
    let mut walk = Walk {
        m,
        opened: m[SEGMENTS],
        marks,
        held,
        placed: 0,
        queues: 0,
        nonlocal: 0,
    };
    (tree(&mut walk, TASKS - m[FREE_TASKS]) && whole(&walk)).then_some(held)
}

fn numbers(m: &Words) -> bool {
    let (length, opened) = (m[LENGTH], m[SEGMENTS]);
    (1..=MOST_LENGTH).contains(&length)
        && (FEWEST_SEGMENTS..=MOST_SEGMENTS).contains(&opened)
        && length * opened <= VALUE_WORDS
}

/// First places, counts and nexts. No early exit and one comparison a word, so
/// that several words are tested at once.
fn segment_words(m: &Words) -> bool {
    let (length, opened) = (m[LENGTH], m[SEGMENTS]);
    let records = &m[SEGMENT_RECORDS..SEGMENT_RECORDS + SEGMENT_WORDS * opened as usize];
    // Raised by one, the mark for none is 0 and each good next is at most `opened`.
    let raise = [0, 0, 1, 0];
    let most = [length - 1, length, opened, u32::MAX];
    let mut bad = [0; SEGMENT_WORDS];
    for record in records.chunks_exact(SEGMENT_WORDS) {
        for i in 0..SEGMENT_WORDS {
            bad[i] |= u32::from(record[i].wrapping_add(raise[i]) > most[i]);
        }
    }
    bad == [0; SEGMENT_WORDS]
}

/// Marks the free segments and counts those opened that are held. None where a
/// number on the stack is no segment opened, or stands there twice.
fn count_held(m: &Words, marks: &mut [u8; MOST_SEGMENTS as usize]) -> Option<u32> {
    let (opened, height) = (m[SEGMENTS], m[FREE_SEGMENTS]);
    if height > opened {
        return None;
    }
    for &s in &m[SEGMENT_STACK..SEGMENT_STACK + height as usize] {
        if s >= opened {
            return None;
        }
        marks[s as usize] = FREE_ONE;
    }
    let held: u16 = marks[..opened as usize]
        .iter()
        .map(|mark| u16::from(*mark == 0))
        .sum();
    let held = u32::from(held);
    (held + height == opened).then_some(held)
}

/// The free records are distinct, are not task 0, and say that they are free.
fn free_tasks(m: &Words) -> bool {
    let height = m[FREE_TASKS];
    if height >= TASKS {
        return false;
    }
    let mut marks = [0u8; TASKS as usize];
    let mut wrong = 0;
    for &t in &m[TASK_STACK..TASK_STACK + height as usize] {
        let near = t & (TASKS - 1);
        wrong |= (t ^ near) | (m[task(near)] ^ FREE);
        marks[near as usize] = 1;
    }
    let distinct: u32 = marks.iter().map(|mark| u32::from(*mark)).sum();
    wrong == 0 && marks[0] == 0 && distinct == height
}

fn top(m: &Words) -> bool {
    let r = &m[TASK_RECORDS..TASK_RECORDS + TASK_WORDS];
    let childless = r[YOUNGEST] == NONE;
    (r[STATUS] == UNFINISHED || (r[STATUS] == FINISHED && childless))
        && r[RIGHTS] == ALL_RIGHTS
        && r[PARENT] == NONE
        && r[OLDER] == NONE
        && r[YOUNGER] == NONE
}

/// Walks the tree backward from the top: a task is met, then its children from
/// the youngest on, then it is left.
fn tree(walk: &mut Walk, unfinished: u32) -> bool {
    let (mut at, mut number) = (0, 1);
    while number <= unfinished && met(walk, at) {
        match following(walk, at) {
            None => return false,
            Some(0) => return number == unfinished,
            Some(t) => at = t,
        }
        number += 1;
    }
    false
}

/// The task met after `at`; 0 once the top is left.
fn following(walk: &mut Walk, mut at: u32) -> Option<u32> {
    let child = walk.m[task(at) + YOUNGEST];
    if child != NONE {
        return fits(walk.m, child, at, NONE).then_some(child);
    }
    while left(walk, at) {
        if at == 0 {
            return Some(0);
        }
        let (sibling, up) = (walk.m[task(at) + OLDER], walk.m[task(at) + PARENT]);
        if sibling != NONE {
            return fits(walk.m, sibling, up, at).then_some(sibling);
        }
        at = up;
    }
    None
}

/// May task `t` stand here in the tree, as a child of `up` and next to the
/// sibling `younger`?
fn fits(m: &Words, t: u32, up: u32, younger: u32) -> bool {
    if t >= TASKS {
        return false;
    }
    let r = record(m, t);
    r[STATUS] == UNFINISHED
        && r[PARENT] == up
        && r[YOUNGER] == younger
        && r[RIGHTS] & !record(m, up)[RIGHTS] == 0
}

/// The record of task `t`, which is below 128.
fn record(m: &Words, t: u32) -> &[u32; TASK_WORDS] {
    let words = m[task(t & (TASKS - 1))..].first_chunk();
    words.expect("a record stands within the words")
}

/// The views of `t` that stand after those of its children, and its queue views.
fn met(walk: &mut Walk, t: u32) -> bool {
    let r = record(walk.m, t);
    queue_views(walk, r) && views::<RIGHT_HEADS>(walk, r) && views::<USER_HEADS>(walk, r)
}

/// The views of `t` that stand before those of its children.
fn left(walk: &mut Walk, t: u32) -> bool {
    views::<CHILDREN_HEADS>(walk, record(walk.m, t))
}

/// Are the four words from `i` on all the mark for none? It has all bits set.
fn all_none(r: &[u32; TASK_WORDS], i: usize) -> bool {
    r[i] & r[i + 1] & r[i + 2] & r[i + 3] == NONE
}

fn queue_views(walk: &mut Walk, r: &[u32; TASK_WORDS]) -> bool {
    all_none(r, QUEUE_HEADS) || (0..QUEUES).all(|q| queue_view(walk, r, q))
}

fn queue_view(walk: &mut Walk, r: &[u32; TASK_WORDS], q: u32) -> bool {
    let head = r[QUEUE_HEADS + q as usize];
    if head == NONE {
        return true;
    }
    let new = walk.queues & (1 << q) == 0;
    walk.queues |= 1 << q;
    new && r[RIGHTS] & any_right(q) != 0 && chain(walk, head)
}

/// The four views of one kind; `KIND` is where their heads start. Most tasks
/// have none, so that is tested first.
#[inline(always)]
fn views<const KIND: usize>(walk: &mut Walk, r: &[u32; TASK_WORDS]) -> bool {
    let none = all_none(r, KIND) && all_none(r, KIND + TAIL_FROM_HEAD);
    none || (0..QUEUES).all(|q| stored_view(walk, r, KIND + q as usize, q))
}

fn stored_view(walk: &mut Walk, r: &[u32; TASK_WORDS], i: usize, q: u32) -> bool {
    let (head, tail) = (r[i], r[i + TAIL_FROM_HEAD]);
    if head == NONE && tail == NONE {
        return true;
    }
    r[RIGHTS] & any_right(q) != 0 && view(walk, q, head, tail)
}

/// A view that is not empty, met before the one in front of it.
fn view(walk: &mut Walk, q: u32, head: u32, tail: u32) -> bool {
    let next_head_nonlocal = walk.nonlocal & (1 << q) != 0;
    if (tail == NL) != next_head_nonlocal {
        return false;
    }
    walk.nonlocal = walk.nonlocal & !(1 << q) | u32::from(head == NL) << q;
    (tail == NL || end(walk, tail)) && (head == NL || chain(walk, head))
}

/// Marks the segments from `head` on. More places than held segments end it, so
/// a ring does.
fn chain(walk: &mut Walk, head: u32) -> bool {
    let mut s = head;
    while s < walk.opened && walk.placed < walk.held {
        walk.placed += 1;
        let record = &walk.m[segment(s)..segment(s) + SEGMENT_WORDS];
        let (held, after) = (record[COUNT], record[NEXT]);
        if after == NONE {
            walk.mark(s, END);
            return true;
        }
        if held == 0 {
            return false;
        }
        walk.mark(s, INNER);
        s = after;
    }
    false
}

fn end(walk: &mut Walk, tail: u32) -> bool {
    walk.mark(tail, TAIL);
    tail < walk.opened
}

/// Each segment has its one place, each end its tail, each queue its head, and
/// the first view of each queue behind the queue view a non-local head.
fn whole(walk: &Walk) -> bool {
    let mut good = true;
    for &mark in &walk.marks[..walk.opened as usize] {
        good &= (mark == FREE_ONE) | (mark == INNER) | (mark == END | TAIL);
    }
    good && walk.queues == 15 && walk.nonlocal == 15
}
