//! The seven calls of the core, on any words of any number.
//!
//! Each call tests in the order of document 01's table, and writes only when
//! nothing can turn it down any more. What follows the memory test stands in a
//! function of its own, `try_..`, for the runner, which makes that test itself.

use crate::answer::*;
use crate::layout::*;
use crate::views::{self, EMPTY};
use crate::{fast, late, pools, push, tree};

/// An answer that ends a call early is the error case.
pub(crate) type Tried = Result<Answer, Answer>;
type Passed = Result<(), Answer>;

pub(crate) fn either(tried: Tried) -> Answer {
    match tried {
        Ok(answer) | Err(answer) => answer,
    }
}

/// A call behind the memory test.
fn whole(m: &mut [u32], behind: impl FnOnce(&mut [u32]) -> Tried) -> Answer {
    either(memory_passes(m).and_then(|()| behind(m)))
}

fn refuse_if(bad: bool, answer: Answer) -> Passed {
    if bad {
        Err(answer)
    } else {
        Ok(())
    }
}

/// Tests 1 and 2.
fn memory_passes(m: &[u32]) -> Passed {
    refuse_if(m.len() != WORDS, LENGTH_WRONG)?;
    refuse_if(!fast::hold(m), RULES_FAIL)
}

/// Test 4.
pub(crate) fn task_unfinished(m: &[u32], t: u32) -> Passed {
    refuse_if(t >= TASKS || status(m, t) != UNFINISHED, NO_SUCH_TASK)
}

/// Test 5.
fn queue_exists(q: u32) -> Passed {
    refuse_if(q >= QUEUES, NO_SUCH_QUEUE)
}

/// Test 6 of push and take.
fn right_held(m: &[u32], t: u32, bit: u32) -> Passed {
    refuse_if(!tree::holds(m, t, bit), NO_RIGHT)
}

/// The wait of every call for older siblings that pop.
pub(crate) fn no_older_popper(m: &[u32], t: u32) -> Passed {
    refuse_if(tree::waits_for_sibling(m, t), Answer::Waits)
}

/// The wait of sync and finish.
fn no_child(m: &[u32], t: u32) -> Passed {
    refuse_if(youngest(m, t) != NONE, Answer::Waits)
}

/// Opens the core with segments of `length` values, `opened` of them.
pub fn open(m: &mut [u32], length: u32, opened: u32) -> Answer {
    if m.len() != WORDS {
        return LENGTH_WRONG;
    }
    let lengths = 1..=MOST_LENGTH;
    let numbers = FEWEST_SEGMENTS..=MOST_SEGMENTS;
    // The ranges go first, so that the product is small.
    let fit =
        lengths.contains(&length) && numbers.contains(&opened) && length * opened <= VALUE_WORDS;
    if !fit {
        return NUMBERS_WRONG;
    }
    m.fill(0);
    write_header(m, length, opened);
    write_top(m);
    Answer::Moved(0)
}

/// The header and both stacks: the lowest number is used first.
fn write_header(m: &mut [u32], length: u32, opened: u32) {
    put(m, LENGTH, length);
    put(m, SEGMENTS, opened);
    put(m, FREE_SEGMENTS, opened - QUEUES);
    put(m, FREE_TASKS, TASKS - 1);
    for i in 0..opened - QUEUES {
        put(m, segment_place(i), opened - 1 - i);
    }
    for i in 0..TASKS - 1 {
        put(m, task_place(i), TASKS - 1 - i);
    }
}

/// The top task; queue q starts with segment q, shared between the queue view
/// and the user view.
fn write_top(m: &mut [u32]) {
    put(m, task(0) + STATUS, UNFINISHED);
    put(m, task(0) + RIGHTS, ALL_RIGHTS);
    for link in [PARENT, OLDER, YOUNGER, YOUNGEST] {
        put(m, task(0) + link, NONE);
    }
    for q in 0..QUEUES {
        put(m, segment(q) + NEXT, NONE);
        put(m, queue_head(0, q), q);
        views::write(m, children_view(0, q), EMPTY);
        views::write(m, user_view(0, q), views::View { head: NL, tail: q });
        views::write(m, right_view(0, q), EMPTY);
    }
}

/// Spawns a child of `t`; the value is its number.
pub fn spawn(m: &mut [u32], t: u32, child_rights: u32) -> Answer {
    whole(m, |m| try_spawn(m, t, child_rights))
}

/// The tests of a spawn behind the memory test; the number of the child.
pub(crate) fn may_spawn(m: &[u32], t: u32, child_rights: u32) -> Result<u32, Answer> {
    task_unfinished(m, t)?;
    refuse_if(child_rights & !rights(m, t) != 0, NO_RIGHT)?;
    no_older_popper(m, t)?;
    pools::next_free_task(m).ok_or(NO_RECORD)
}

pub(crate) fn try_spawn(m: &mut [u32], t: u32, child_rights: u32) -> Tried {
    let child = may_spawn(m, t, child_rights)?;
    pools::take_task(m);
    write_child(m, t, child, child_rights);
    for q in 0..QUEUES {
        pass_views(m, t, child, q);
    }
    Ok(Answer::Moved(child))
}

/// The child's own words, and its place as the youngest child of `t`.
fn write_child(m: &mut [u32], t: u32, child: u32, child_rights: u32) {
    let sibling = youngest(m, t);
    let words = [UNFINISHED, child_rights, t, sibling, NONE, NONE];
    for (i, word) in words.into_iter().enumerate() {
        put(m, task(child) + i, word);
    }
    if sibling != NONE {
        put(m, task(sibling) + YOUNGER, child);
    }
    put(m, task(t) + YOUNGEST, child);
}

/// What spawning passes on for queue `q`: the user view to a child with any
/// right to it, the queue view to one with the pop right.
fn pass_views(m: &mut [u32], t: u32, child: u32, q: u32) {
    put(m, queue_head(child, q), NONE);
    for place in [
        children_view(child, q),
        user_view(child, q),
        right_view(child, q),
    ] {
        views::write(m, place, EMPTY);
    }
    if tree::holds(m, child, any_right(q)) {
        let user = views::read(m, user_view(t, q));
        views::write(m, user_view(child, q), user);
        views::write(m, user_view(t, q), EMPTY);
    }
    if tree::holds(m, child, pop_right(q)) {
        pass_queue_view(m, t, child, q);
    }
}

/// Moves the queue view of `q`, if `from` has it.
fn pass_queue_view(m: &mut [u32], from: u32, to: u32, q: u32) {
    let head = get(m, queue_head(from, q));
    if head != NONE {
        put(m, queue_head(from, q), NONE);
        put(m, queue_head(to, q), head);
    }
}

/// Pushes a run of values to queue `q`; the value is its last one, 0 for none.
pub fn push(m: &mut [u32], t: u32, q: u32, run: &[u32]) -> Answer {
    whole(m, |m| try_push(m, t, q, run))
}

/// The tests of a push but those of its place.
fn may_store(m: &[u32], t: u32, q: u32) -> Passed {
    task_unfinished(m, t)?;
    queue_exists(q)?;
    right_held(m, t, push_right(q))?;
    no_older_popper(m, t)
}

/// The tests of a push of one value.
pub(crate) fn may_push(m: &[u32], t: u32, q: u32) -> Passed {
    may_store(m, t, q)?;
    push::place(m, t, q, 1).map(|_| ())
}

pub(crate) fn try_push(m: &mut [u32], t: u32, q: u32, run: &[u32]) -> Tried {
    may_store(m, t, q)?;
    let Some(last) = run.last() else {
        return Ok(Answer::Moved(0));
    };
    let place = push::place(m, t, q, run.len())?;
    push::write(m, t, q, run, place);
    Ok(Answer::Moved(*last))
}

/// The tests of a take; the segment that has the first value, none where the
/// queue is empty.
pub(crate) fn find(m: &[u32], t: u32, q: u32) -> Result<Option<u32>, Answer> {
    task_unfinished(m, t)?;
    queue_exists(q)?;
    right_held(m, t, pop_right(q))?;
    no_older_popper(m, t)?;
    refuse_if(tree::waits_for_popping_child(m, t, q), Answer::Waits)?;
    let head = get(m, queue_head(t, q));
    // Only the last segment of a chain may be empty, so the first one tells.
    if head != NONE && count(m, head) != 0 {
        return Ok(Some(head));
    }
    refuse_if(tree::pusher_before(m, t, q), Answer::Waits)?;
    Ok(None)
}

/// Takes the first value of queue `q`, or tells it with `keep`: then, and where
/// the queue is empty, no word changes.
pub fn take(m: &mut [u32], t: u32, q: u32, keep: bool) -> Answer {
    whole(m, |m| try_take(m, t, q, keep))
}

pub(crate) fn try_take(m: &mut [u32], t: u32, q: u32, keep: bool) -> Tried {
    let Some(s) = find(m, t, q)? else {
        return Ok(Answer::Empty);
    };
    let value = pools::value(m, s, 0);
    if !keep {
        drop_value(m, t, q, s);
    }
    Ok(Answer::Moved(value))
}

/// The first value of the head segment `s` goes, and `s` with its last one if
/// another follows.
fn drop_value(m: &mut [u32], t: u32, q: u32, s: u32) {
    pools::drop_first(m, s);
    let after = next(m, s);
    if count(m, s) == 0 && after != NONE {
        put(m, queue_head(t, q), after);
        pools::free_segment(m, s);
    }
}

/// The tests of sync and finish but the last.
fn may_end(m: &[u32], t: u32) -> Passed {
    task_unfinished(m, t)?;
    no_older_popper(m, t)?;
    no_child(m, t)
}

/// Reduces the children view with the user view, for each queue.
pub fn sync(m: &mut [u32], t: u32) -> Answer {
    whole(m, |m| try_sync(m, t))
}

pub(crate) fn may_sync(m: &[u32], t: u32) -> Passed {
    may_end(m, t)?;
    refuse_if(late::sync_left_out(m, t), RULES_FAIL)
}

pub(crate) fn try_sync(m: &mut [u32], t: u32) -> Tried {
    may_sync(m, t)?;
    join_children(m, t);
    Ok(Answer::Moved(0))
}

fn join_children(m: &mut [u32], t: u32) {
    for q in 0..QUEUES {
        let (children, user) = (children_view(t, q), user_view(t, q));
        views::join(m, children, user, user);
    }
}

/// Finishes `t`. The top's record stays, with its views.
pub fn finish(m: &mut [u32], t: u32) -> Answer {
    whole(m, |m| try_finish(m, t))
}

pub(crate) fn may_finish(m: &[u32], t: u32) -> Passed {
    if t == 0 {
        return may_sync(m, t);
    }
    may_end(m, t)?;
    refuse_if(late::finish_left_out(m, t), RULES_FAIL)
}

pub(crate) fn try_finish(m: &mut [u32], t: u32) -> Tried {
    may_finish(m, t)?;
    if t == 0 {
        join_children(m, t);
        put(m, task(t) + STATUS, FINISHED);
        return Ok(Answer::Moved(0));
    }
    for q in 0..QUEUES {
        return_views(m, t, q);
        return_queue_view(m, t, q);
    }
    unlink(m, t);
    pools::free_task(m, t);
    Ok(Answer::Moved(0))
}

/// Children, user and right view become one, which goes to its place.
fn return_views(m: &mut [u32], t: u32, q: u32) {
    let user = user_view(t, q);
    views::join(m, children_view(t, q), user, user);
    views::join(m, user, right_view(t, q), user);
    let whole = views::read(m, user);
    if !whole.is_empty() {
        let place = views::place_of_returned(m, t, q, whole.head);
        views::join(m, place, user, place);
    }
}

/// The queue view goes to the oldest sibling that pops, else to the parent.
fn return_queue_view(m: &mut [u32], t: u32, q: u32) {
    let receiver = tree::oldest_popping_sibling(m, t, q).unwrap_or(parent(m, t));
    pass_queue_view(m, t, receiver, q);
}

/// Takes `t` out of the list of its siblings.
fn unlink(m: &mut [u32], t: u32) {
    let (o, y, up) = (older(m, t), younger(m, t), parent(m, t));
    if o != NONE {
        put(m, task(o) + YOUNGER, y);
    }
    if y != NONE {
        put(m, task(y) + OLDER, o);
    } else {
        put(m, task(up) + YOUNGEST, o);
    }
}

/// Value number `index`, from 0, still in queue `q` once the top has finished.
pub fn left(m: &mut [u32], q: u32, index: u32) -> Answer {
    whole(m, |m| try_left(m, q, index))
}

fn try_left(m: &[u32], q: u32, index: u32) -> Tried {
    queue_exists(q)?;
    refuse_if(status(m, 0) != FINISHED, Answer::Waits)?;
    let (mut s, mut index) = (get(m, queue_head(0, q)), index);
    for _ in 0..segments(m) {
        if s == NONE {
            break;
        }
        if index < count(m, s) {
            return Ok(Answer::Moved(pools::value(m, s, index)));
        }
        index -= count(m, s);
        s = next(m, s);
    }
    Err(PAST_THE_END)
}
