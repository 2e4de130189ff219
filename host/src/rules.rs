//! The memory rules of document 01, one function a rule, as they are worded.
//!
//! Speed does not matter here: `fast` says the same in one pass and is
//! compared with this file. Every function is total and ends on any words.
//!
//! Free means: on the stack of free ones. Held means: not free. Links are those
//! of unfinished tasks and of task 0; a free record has none. Counts, first
//! places and nexts are read in every segment below the number opened with.

use crate::layout::*;

/// A rule with the words of document 01, or of the layout, that it stands for.
pub type Rule = (&'static str, fn(&[u32]) -> bool);

/// All the rules. Memory passes when each holds.
pub const RULES: [Rule; 21] = [
    ("L and segments in range", numbers_in_range),
    ("stacks below their limits", stacks_in_range),
    ("each record unfinished or free", records_unfinished_or_free),
    ("task links below 128 or none", task_links_in_range),
    ("view ends are segments or marks", views_in_range),
    ("nexts below the number opened or none", nexts_in_range),
    ("counts at most L, first places below L", counts_and_places),
    ("each segment held or free", segments_held_or_free),
    ("held segments are named once", held_named_once),
    ("ends are named by one tail", ends_named_by_tails),
    ("empty with a next has been freed", no_empty_with_next),
    ("no ring of nexts", no_ring_of_nexts),
    ("the top's record", top_record),
    ("parents are unfinished", parents_unfinished),
    ("siblings linked both ways", siblings_both_ways),
    ("no ring of siblings", no_ring_of_siblings),
    ("no ring of parents", no_ring_of_parents),
    ("child rights within the parent's", rights_within_parents),
    ("one queue view with a head", one_queue_view),
    ("views need a right", views_need_a_right),
    ("order of the views", order_of_views),
];

/// Does this memory pass?
pub fn hold(m: &[u32]) -> bool {
    first_broken(m).is_none()
}

/// How many segments are held, where this memory passes.
pub fn held(m: &[u32]) -> Option<u32> {
    hold(m).then(|| held_segments(m).len() as u32)
}

/// The first rule that this memory breaks.
pub fn first_broken(m: &[u32]) -> Option<&'static str> {
    if m.len() != WORDS {
        return Some("length of the memory");
    }
    let broken = RULES.iter().find(|(_, rule)| !rule(m));
    broken.map(|(words, _)| *words)
}

/// The entries of the stack of free segments.
pub fn free_segments(m: &[u32]) -> Vec<u32> {
    let height = get(m, FREE_SEGMENTS).min(MOST_SEGMENTS);
    (0..height).map(|i| get(m, segment_place(i))).collect()
}

/// The entries of the stack of free task records.
pub fn free_tasks(m: &[u32]) -> Vec<u32> {
    let height = get(m, FREE_TASKS).min(TASKS);
    (0..height).map(|i| get(m, task_place(i))).collect()
}

/// The segments opened with that are not free.
pub fn held_segments(m: &[u32]) -> Vec<u32> {
    let free = free_segments(m);
    let opened = segments(m).min(MOST_SEGMENTS);
    (0..opened).filter(|s| !free.contains(s)).collect()
}

/// The tasks whose words are read: task 0 and the unfinished ones.
pub fn live_tasks(m: &[u32]) -> Vec<u32> {
    let lives = |t: &u32| *t == 0 || status(m, *t) == UNFINISHED;
    (0..TASKS).filter(lives).collect()
}

/// The unfinished tasks but the top.
fn children_of_any(m: &[u32]) -> Vec<u32> {
    let unfinished = |t: &u32| status(m, *t) == UNFINISHED;
    (1..TASKS).filter(unfinished).collect()
}

/// The head words of all views of task `t`, queue views first.
fn heads_of(t: u32) -> impl Iterator<Item = usize> {
    (0..16).map(move |i| task(t) + QUEUE_HEADS + i)
}

/// The head words of the views with a stored tail.
fn stored_views_of(t: u32) -> impl Iterator<Item = usize> {
    (0..12).map(move |i| task(t) + CHILDREN_HEADS + i)
}

/// How many heads of views name segment `s`.
fn heads_naming(m: &[u32], s: u32) -> usize {
    let heads = live_tasks(m).into_iter().flat_map(heads_of);
    heads.filter(|a| get(m, *a) == s).count()
}

/// How many tails of views name segment `s`.
fn tails_naming(m: &[u32], s: u32) -> usize {
    let views = live_tasks(m).into_iter().flat_map(stored_views_of);
    views.filter(|a| get(m, a + TAIL_FROM_HEAD) == s).count()
}

/// How many of the segments `held` have `s` as their next.
fn nexts_naming(m: &[u32], held: &[u32], s: u32) -> usize {
    held.iter().filter(|r| next(m, **r) == s).count()
}

/// Is there no number twice in the list?
fn all_distinct(list: &[u32]) -> bool {
    let twice = |(i, x)| list[..i].contains(x);
    !list.iter().enumerate().any(twice)
}

/// "L and segments in the ranges above".
pub fn numbers_in_range(m: &[u32]) -> bool {
    let (length, opened) = (length(m), segments(m));
    (1..=MOST_LENGTH).contains(&length)
        && (FEWEST_SEGMENTS..=MOST_SEGMENTS).contains(&opened)
        && length * opened <= VALUE_WORDS
}

/// "every link below its limit": the stacks.
pub fn stacks_in_range(m: &[u32]) -> bool {
    let opened = segments(m);
    get(m, FREE_SEGMENTS) <= opened
        && get(m, FREE_TASKS) < TASKS
        && free_segments(m).iter().all(|s| *s < opened)
        && free_tasks(m).iter().all(|t| (1..TASKS).contains(t))
}

/// "every link below its limit or the mark for none": links of tasks.
pub fn task_links_in_range(m: &[u32]) -> bool {
    let fits = |link: u32| link < TASKS || link == NONE;
    live_tasks(m).into_iter().all(|t| {
        fits(parent(m, t)) && fits(older(m, t)) && fits(younger(m, t)) && fits(youngest(m, t))
    })
}

/// "every link below its limit or the mark for none": ends of views. A queue
/// view has a segment or nothing; any other is empty or has two ends.
pub fn views_in_range(m: &[u32]) -> bool {
    let opened = segments(m);
    let end = |word: u32| word < opened || word == NL;
    let queue_fits = |word: u32| word < opened || word == NONE;
    let view_fits = |a: usize| {
        let (head, tail) = (get(m, a), get(m, a + TAIL_FROM_HEAD));
        (head == NONE && tail == NONE) || (end(head) && end(tail))
    };
    live_tasks(m).into_iter().all(|t| {
        let queues_fit = (0..QUEUES).all(|q| queue_fits(get(m, queue_head(t, q))));
        queues_fit && stored_views_of(t).all(view_fits)
    })
}

/// "every link below its limit or the mark for none": nexts.
pub fn nexts_in_range(m: &[u32]) -> bool {
    let opened = segments(m);
    (0..opened.min(MOST_SEGMENTS)).all(|s| next(m, s) < opened || next(m, s) == NONE)
}

/// "counts at most L, first places below L".
pub fn counts_and_places(m: &[u32]) -> bool {
    let length = length(m);
    (0..segments(m).min(MOST_SEGMENTS)).all(|s| count(m, s) <= length && first(m, s) < length)
}

/// "each segment held or free, never both": none stands twice on the stack,
/// and nothing names one that is there.
pub fn segments_held_or_free(m: &[u32]) -> bool {
    let (free, held) = (free_segments(m), held_segments(m));
    let unnamed = |s: &u32| {
        heads_naming(m, *s) == 0 && tails_naming(m, *s) == 0 && nexts_naming(m, &held, *s) == 0
    };
    all_distinct(&free) && free.iter().all(unnamed)
}

/// "every held segment is named by one next or one view's head".
pub fn held_named_once(m: &[u32]) -> bool {
    let held = held_segments(m);
    held.iter()
        .all(|s| heads_naming(m, *s) + nexts_naming(m, &held, *s) == 1)
}

/// "by exactly one view's tail if it has no next, by none otherwise".
pub fn ends_named_by_tails(m: &[u32]) -> bool {
    let tails_due = |s: u32| usize::from(next(m, s) == NONE);
    held_segments(m)
        .into_iter()
        .all(|s| tails_naming(m, s) == tails_due(s))
}

/// "a segment that is empty and has a next has been freed".
pub fn no_empty_with_next(m: &[u32]) -> bool {
    let stays = |s: u32| count(m, s) != 0 || next(m, s) == NONE;
    held_segments(m).into_iter().all(stays)
}

/// Following `link` from `start` meets the end within `most` steps.
fn comes_to_an_end(start: u32, most: u32, link: impl Fn(u32) -> u32) -> bool {
    let mut at = start;
    for _ in 0..most {
        at = link(at);
        if at == NONE {
            return true;
        }
    }
    false
}

/// "no ring of ... nexts".
pub fn no_ring_of_nexts(m: &[u32]) -> bool {
    let most = segments(m).min(MOST_SEGMENTS);
    let ends = |s: u32| comes_to_an_end(s, most, |r| next(m, r));
    held_segments(m).into_iter().all(ends)
}

/// "each record but task 0's unfinished or free, never both".
pub fn records_unfinished_or_free(m: &[u32]) -> bool {
    let free = free_tasks(m);
    let status_due = |t: u32| if free.contains(&t) { FREE } else { UNFINISHED };
    all_distinct(&free) && (1..TASKS).all(|t| status(m, t) == status_due(t))
}

/// Task 0 is unfinished or finished, has all rights, no parent and no sibling.
pub fn top_record(m: &[u32]) -> bool {
    (status(m, 0) == UNFINISHED || status(m, 0) == FINISHED)
        && rights(m, 0) == ALL_RIGHTS
        && parent(m, 0) == NONE
        && older(m, 0) == NONE
        && younger(m, 0) == NONE
}

/// "an unfinished task other than the top has an unfinished parent".
pub fn parents_unfinished(m: &[u32]) -> bool {
    children_of_any(m).into_iter().all(|t| {
        let p = parent(m, t);
        p < TASKS && status(m, p) == UNFINISHED
    })
}

/// "siblings linked both ways": the unfinished children of a task form one
/// list, and the task's youngest child is its end.
pub fn siblings_both_ways(m: &[u32]) -> bool {
    children_of_any(m)
        .into_iter()
        .all(|t| older_agrees(m, t) && younger_agrees(m, t))
        && live_tasks(m).into_iter().all(|t| youngest_agrees(m, t))
}

fn is_child(m: &[u32], t: u32, of: u32) -> bool {
    t < TASKS && status(m, t) == UNFINISHED && parent(m, t) == of
}

fn older_agrees(m: &[u32], t: u32) -> bool {
    let o = older(m, t);
    o == NONE || (is_child(m, o, parent(m, t)) && younger(m, o) == t)
}

fn younger_agrees(m: &[u32], t: u32) -> bool {
    let (y, p) = (younger(m, t), parent(m, t));
    if y == NONE {
        youngest(m, p) == t
    } else {
        is_child(m, y, p) && older(m, y) == t
    }
}

fn youngest_agrees(m: &[u32], t: u32) -> bool {
    let c = youngest(m, t);
    c == NONE || (is_child(m, c, t) && younger(m, c) == NONE)
}

/// "no ring of siblings".
pub fn no_ring_of_siblings(m: &[u32]) -> bool {
    live_tasks(m).into_iter().all(|t| {
        comes_to_an_end(t, TASKS, |s| older(m, s)) && comes_to_an_end(t, TASKS, |s| younger(m, s))
    })
}

/// "no ring of ... parents".
pub fn no_ring_of_parents(m: &[u32]) -> bool {
    let ends = |t: u32| comes_to_an_end(t, TASKS, |s| parent(m, s));
    live_tasks(m).into_iter().all(ends)
}

/// "child rights within the parent's".
pub fn rights_within_parents(m: &[u32]) -> bool {
    let within = |t: u32| rights(m, t) & !rights(m, parent(m, t)) == 0;
    children_of_any(m).into_iter().all(within)
}

/// "one queue view with a head for each queue".
pub fn one_queue_view(m: &[u32]) -> bool {
    let live = live_tasks(m);
    (0..QUEUES).all(|q| {
        let has_head = |t: &&u32| get(m, queue_head(**t, q)) != NONE;
        live.iter().filter(has_head).count() == 1
    })
}

/// A task has views of the queues to which it has a right, and of no others.
pub fn views_need_a_right(m: &[u32]) -> bool {
    live_tasks(m)
        .into_iter()
        .all(|t| (0..QUEUES).all(|q| rights(m, t) & any_right(q) != 0 || has_no_view(m, t, q)))
}

fn has_no_view(m: &[u32], t: u32, q: u32) -> bool {
    let stored = [children_view(t, q), user_view(t, q), right_view(t, q)];
    let empty = |a: &usize| get(m, *a) == NONE && get(m, a + TAIL_FROM_HEAD) == NONE;
    get(m, queue_head(t, q)) == NONE && stored.iter().all(empty)
}

/// "for each queue, its queue view first and the other non-empty views in the
/// paper's order, a tail is non-local exactly when the next view's head is".
/// The last view has no next one: its tail is local.
pub fn order_of_views(m: &[u32]) -> bool {
    (0..QUEUES).all(|q| {
        let views = views_in_order(m, q);
        // The queue view's tail is non-local and not stored.
        let mut tail = NL;
        for (head, next_tail) in views {
            if (tail == NL) != (head == NL) {
                return false;
            }
            tail = next_tail;
        }
        tail != NL
    })
}

/// Head and tail of the views of queue `q` that are not empty, in the paper's
/// order, without the queue view.
pub fn views_in_order(m: &[u32], q: u32) -> Vec<(u32, u32)> {
    let mut places = Vec::new();
    let mut tasks_left = TASKS;
    place_views(m, q, 0, &mut tasks_left, &mut places);
    let ends = places
        .into_iter()
        .map(|a: usize| (get(m, a), get(m, a + TAIL_FROM_HEAD)));
    ends.filter(|ends| *ends != (NONE, NONE)).collect()
}

/// The children view of `t`, all views of its children from the oldest on, its
/// user view, its right view. `tasks_left` ends the walk on broken links.
fn place_views(m: &[u32], q: u32, t: u32, tasks_left: &mut u32, places: &mut Vec<usize>) {
    if *tasks_left == 0 {
        return;
    }
    *tasks_left -= 1;
    places.push(children_view(t, q));
    for c in oldest_first(m, t) {
        place_views(m, q, c, tasks_left, places);
    }
    places.push(user_view(t, q));
    places.push(right_view(t, q));
}

/// The children of `t` from the oldest on, 128 at most.
fn oldest_first(m: &[u32], t: u32) -> Vec<u32> {
    let mut list = Vec::new();
    let mut at = youngest(m, t);
    while at < TASKS && list.len() < TASKS as usize {
        list.push(at);
        at = older(m, at);
    }
    list.reverse();
    list
}
