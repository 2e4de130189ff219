//! Memories made by hand that break a rule, each with the first rule of
//! `rules::RULES` that it breaks.

use crate::hand::{self, with_child, Named};
use crate::layout::*;
use crate::memory::{Calls, Core, E};

/// A rule, and words of `with_two_children` so changed that it is broken.
type Change = (&'static str, Vec<(usize, u32)>);

/// Memories that pass, and then those that break a rule.
pub fn with_passing() -> Vec<Named> {
    let mut list = hand::passing();
    list.extend(all().into_iter().map(|(_, named)| named));
    list
}

/// Each memory behind the rule that it breaks.
pub fn all() -> Vec<(&'static str, Named)> {
    let changes = [numbers(), records(), segments(), views(), links()].concat();
    let mut list: Vec<(&str, Named)> = changes
        .into_iter()
        .map(|(rule, words)| (rule, (format!("words changed: {words:?}"), changed(&words))))
        .collect();
    let mut add = |rule, name: &str, core: Core| list.push((rule, (name.to_string(), core.0)));
    add(
        "siblings linked both ways",
        "two lists of siblings",
        two_lists(),
    );
    add(
        "parents are unfinished",
        "a finished top with children",
        finished_top(),
    );
    add(
        "ends are named by one tail",
        "local head in the top's children view",
        local_top_head(),
    );
    list
}

/// The top with children 1 (rights 3) and 2 (rights 1).
fn with_two_children() -> Core {
    let mut core = Core::open(4, 8);
    core.spawn(0, 3);
    core.spawn(0, 1);
    core
}

fn changed(words: &[(usize, u32)]) -> Vec<u32> {
    let mut core = with_two_children();
    for (address, word) in words {
        core.put(*address, *word);
    }
    core.0
}

fn one_word(rule: &'static str, address: usize, word: u32) -> Change {
    (rule, vec![(address, word)])
}

fn numbers() -> Vec<Change> {
    let range = "L and segments in range";
    let stacks = "stacks below their limits";
    vec![
        one_word(range, LENGTH, 0),
        one_word(range, LENGTH, 65),
        one_word(range, SEGMENTS, 3),
        one_word(range, SEGMENTS, 257),
        one_word(range, SEGMENTS, NONE),
        one_word(stacks, FREE_SEGMENTS, 9),
        one_word(stacks, FREE_TASKS, 128),
        one_word(stacks, task_place(0), 0),
    ]
}

fn records() -> Vec<Change> {
    let free = "each record unfinished or free";
    let parents = "parents are unfinished";
    let siblings = "siblings linked both ways";
    vec![
        one_word(free, task(9) + STATUS, 1),
        one_word(free, task(9) + STATUS, 2),
        one_word("the top's record", task(0) + STATUS, FREE),
        one_word("the top's record", task(0) + RIGHTS, 3),
        one_word("task links below 128 or none", task(1) + YOUNGEST, 128),
        one_word(parents, task(2) + PARENT, NONE),
        one_word(parents, task(0) + STATUS, FINISHED),
        one_word(siblings, task(2) + OLDER, NONE),
        one_word(siblings, task(2) + OLDER, 2),
        one_word(siblings, task(1) + YOUNGER, 1),
        one_word(siblings, task(0) + YOUNGEST, 0),
        one_word("child rights within the parent's", task(2) + RIGHTS, 257),
    ]
}

fn segments() -> Vec<Change> {
    let places = "counts at most L, first places below L";
    vec![
        one_word(
            "nexts below the number opened or none",
            segment(7) + NEXT,
            8,
        ),
        one_word(places, segment(7) + COUNT, 5),
        one_word(places, segment(7) + FIRST, 4),
        one_word("each segment held or free", segment_place(0), 0),
        // Segment 6 stands on the stack twice.
        one_word("each segment held or free", segment_place(0), 6),
        one_word("held segments are named once", FREE_SEGMENTS, 3),
    ]
}

fn views() -> Vec<Change> {
    let tail = |t, q| user_view(t, q) + TAIL_FROM_HEAD;
    let ends = "ends are named by one tail";
    // Segment 4 is held.
    let with_4 =
        |more: &[(usize, u32)]| [&[(FREE_SEGMENTS, 3), (segment(4) + NEXT, NONE)], more].concat();
    let filled = with_4(&[(segment(1) + NEXT, 4), (tail(0, 1), 4)]);
    let ring = with_4(&[(segment(4) + NEXT, 4), (segment(4) + COUNT, 1)]);
    let two_queue_views = [
        (queue_head(0, 0), 4),
        (user_view(2, 0), NL),
        (tail(2, 0), 4),
    ];
    // No queue view of queue 1, and its user view ends in queue 2's segment.
    let no_queue_view = vec![
        (queue_head(0, 1), NONE),
        (FREE_SEGMENTS, 5),
        (segment_place(4), 1),
        (tail(0, 1), 2),
    ];
    let no_right = vec![
        (user_view(0, 1), NONE),
        (tail(0, 1), NONE),
        (user_view(2, 1), NL),
        (tail(2, 1), 1),
    ];
    let order = vec![
        (children_view(0, 1), NL),
        (children_view(0, 1) + TAIL_FROM_HEAD, 1),
        (tail(0, 1), NL),
    ];
    vec![
        one_word("view ends are segments or marks", queue_head(1, 0), NL),
        one_word(ends, tail(0, 1), 2),
        (ends, no_queue_view),
        ("empty with a next has been freed", filled),
        ("no ring of nexts", ring),
        ("one queue view with a head", with_4(&two_queue_views)),
        ("views need a right", no_right),
        ("order of the views", order),
    ]
}

fn links() -> Vec<Change> {
    let ring = vec![
        (task(1) + OLDER, 2),
        (task(1) + YOUNGER, 2),
        (task(2) + OLDER, 1),
        (task(2) + YOUNGER, 1),
        (task(0) + YOUNGEST, NONE),
    ];
    let apart = vec![(task(1) + YOUNGER, NONE), (task(2) + OLDER, NONE)];
    let mut parents = apart.clone();
    parents.extend([(task(1) + PARENT, 2), (task(2) + PARENT, 1)]);
    parents.extend([(task(1) + YOUNGEST, 2), (task(2) + YOUNGEST, 1)]);
    parents.push((task(0) + YOUNGEST, NONE));
    vec![
        ("no ring of siblings", ring),
        ("siblings linked both ways", apart),
        ("no ring of parents", parents),
    ]
}

/// Children 1 and 2, and 3 and 4, each linked both ways, but not 2 and 3.
fn two_lists() -> Core {
    let mut core = Core::open(4, 8);
    for _ in 0..4 {
        core.spawn(0, 1);
    }
    core.put(task(2) + YOUNGER, NONE);
    core.put(task(3) + OLDER, NONE);
    core
}

fn finished_top() -> Core {
    let mut core = Core::open(4, 8);
    core.spawn(0, 255);
    core.spawn(1, 1);
    core.push(2, 0, 5);
    core.put(task(0) + STATUS, FINISHED);
    core
}

/// The top's children view is the first of its queue and has a local head, where
/// the queue view's tail is non-local: segment 4 ends in no view.
fn local_top_head() -> Core {
    let mut core = with_child(8);
    core.set_segment(4, &[6], NONE);
    core.set_views(0, 0, [(4, NL), E, E]);
    core.set_views(1, 0, [E, (NL, 0), E]);
    core
}
