//! Questions about the tree of unfinished tasks, on memory that passes.
//!
//! Walks take 128 steps at most, so they end on any words.

use crate::layout::*;

/// Has task `t` one of these rights?
pub fn holds(m: &[u32], t: u32, bits: u32) -> bool {
    rights(m, t) & bits != 0
}

fn a_task(t: u32) -> Option<u32> {
    (t < TASKS).then_some(t)
}

/// The tasks met from `start` on along one link.
fn along(m: &[u32], start: u32, link: fn(&[u32], u32) -> u32) -> impl Iterator<Item = u32> + '_ {
    let step = move |t: &u32| a_task(link(m, *t));
    std::iter::successors(a_task(start), step).take(TASKS as usize)
}

/// The unfinished children of `t`, the youngest first.
pub fn children(m: &[u32], t: u32) -> impl Iterator<Item = u32> + '_ {
    along(m, youngest(m, t), older)
}

/// The unfinished older siblings of `t`, the nearest first.
pub fn older_siblings(m: &[u32], t: u32) -> impl Iterator<Item = u32> + '_ {
    along(m, older(m, t), older)
}

/// `t`, its parent and so on up to the top.
pub fn upward(m: &[u32], t: u32) -> impl Iterator<Item = u32> + '_ {
    along(m, t, parent)
}

/// The nearest older sibling with a right to queue `q`.
pub fn left_sibling(m: &[u32], t: u32, q: u32) -> Option<u32> {
    older_siblings(m, t).find(|s| holds(m, *s, any_right(q)))
}

/// The oldest sibling of `t` with the pop right on queue `q`.
pub fn oldest_popping_sibling(m: &[u32], t: u32, q: u32) -> Option<u32> {
    let pops = |s: &u32| *s != t && holds(m, *s, pop_right(q));
    children(m, parent(m, t)).filter(pops).last()
}

/// Is there an older sibling that shares a pop right with `t` on some queue?
pub fn waits_for_sibling(m: &[u32], t: u32) -> bool {
    let shared = rights(m, t) & POP_RIGHTS;
    older_siblings(m, t).any(|s| holds(m, s, shared))
}

/// Has `t` an unfinished child with the pop right on queue `q`?
pub fn waits_for_popping_child(m: &[u32], t: u32, q: u32) -> bool {
    children(m, t).any(|c| holds(m, c, pop_right(q)))
}

/// Does a pusher's spot stand before that of `t`? Those spots are the ones of
/// the tasks below `t`, and of the older siblings of `t` and of the tasks above
/// it with all that is below them. A task below another has no right that the
/// other lacks, so it is enough to ask the uppermost ones.
pub fn pusher_before(m: &[u32], t: u32, q: u32) -> bool {
    let pushes = |s: u32| holds(m, s, push_right(q));
    children(m, t).any(pushes) || upward(m, t).any(|a| older_siblings(m, a).any(pushes))
}

/// All tasks of the tree, backward: a task, then its children with all that is
/// below them, the youngest first.
pub fn backward(m: &[u32]) -> Vec<u32> {
    let (mut list, mut waiting) = (Vec::new(), vec![0]);
    while let Some(t) = waiting.pop() {
        if list.len() == TASKS as usize {
            break;
        }
        list.push(t);
        let below: Vec<u32> = children(m, t).collect();
        waiting.extend(below.into_iter().rev());
    }
    list
}
