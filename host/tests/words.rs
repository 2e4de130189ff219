//! Which words each call writes: the layout's table of the opened memory, what
//! taking and freeing leave behind, and the views after each call.

use host::layout::*;
use host::memory::*;

/// The words that differ, with their new contents.
fn changes(before: &Core, after: &Core) -> Vec<(usize, u32)> {
    let pairs = before.0.iter().zip(&after.0).enumerate();
    pairs
        .filter(|(_, (old, new))| old != new)
        .map(|(address, (_, new))| (address, *new))
        .collect()
}

#[test]
fn opened_memory() {
    for (length, opened) in [(4, 8), (1, 4), (64, 128), (32, 256)] {
        let mut due = vec![0; WORDS];
        due[..4].copy_from_slice(&[length, opened, opened - 4, 127]);
        for i in 0..opened - 4 {
            due[64 + i as usize] = opened - 1 - i;
        }
        for i in 0..127 {
            due[320 + i as usize] = 127 - i;
        }
        due[1_472..1_478].copy_from_slice(&[1, 255, NONE, NONE, NONE, NONE]);
        for q in 0..4 {
            due[448 + 4 * q + 2] = NONE;
            due[1_472 + 16 + q] = q as u32;
            due[1_472 + 24 + q] = NL;
            due[1_472 + 36 + q] = q as u32;
            for word in [20, 32, 28, 40] {
                due[1_472 + word + q] = NONE;
            }
        }
        assert!(Core::open(length, opened).0 == due);
    }
}

#[test]
fn spawning_writes_the_child_and_its_links() {
    let mut core = Core::open(4, 8);
    core.spawn(0, 0);
    let before = core.clone();
    assert_eq!(core.spawn(0, 0b1001), Moved(2));
    let (top, child) = (task(0), task(2));
    let mut due = vec![
        (FREE_TASKS, 125),
        (top + YOUNGEST, 2),
        (top + QUEUE_HEADS + 1, NONE),
        (top + USER_HEADS, NONE),
        (top + USER_HEADS + 1, NONE),
        (top + USER_HEADS + TAIL_FROM_HEAD, NONE),
        (top + USER_HEADS + TAIL_FROM_HEAD + 1, NONE),
        (task(1) + YOUNGER, 2),
    ];
    let mut record = [0; TASK_WORDS];
    record[..6].copy_from_slice(&[1, 0b1001, 0, 1, NONE, NONE]);
    record[16..44].fill(NONE);
    (record[17], record[24], record[25], record[36], record[37]) = (1, NL, NL, 0, 1);
    let written = record
        .into_iter()
        .enumerate()
        .filter(|(_, word)| *word != 0);
    due.extend(written.map(|(i, word)| (child + i, word)));
    // A word that is written as it was does not show.
    assert_eq!(changes(&before, &core), due);
}

#[test]
fn pushes_and_takes_in_a_ring() {
    let mut core = Core::open(2, 8);
    core.push(0, 0, 5);
    core.push(0, 0, 6);
    core.take(0, 0);
    let before = core.clone();
    core.push(0, 0, 7);
    let place = value_place(0, 2, 0);
    assert_eq!(
        changes(&before, &core),
        [(segment(0) + COUNT, 2), (place, 7)]
    );
    let before = core.clone();
    assert_eq!(core.take(0, 0), Moved(6));
    let due = [(segment(0) + FIRST, 0), (segment(0) + COUNT, 1)];
    assert_eq!(changes(&before, &core), due);
    core.take(0, 0);
    assert_eq!((first(&core.0, 0), count(&core.0, 0)), (1, 0));
}

#[test]
fn full_tail_gets_a_next() {
    let mut core = Core::open(1, 8);
    core.push(0, 0, 5);
    let before = core.clone();
    core.push(0, 0, 6);
    let mut due = vec![
        (FREE_SEGMENTS, 3),
        (segment(0) + NEXT, 4),
        (segment(4) + COUNT, 1),
        (segment(4) + NEXT, NONE),
        (user_view(0, 0) + TAIL_FROM_HEAD, 4),
        (value_place(4, 1, 0), 6),
    ];
    assert_eq!(changes(&before, &core), due);
    let before = core.clone();
    core.take(0, 0);
    due = vec![
        (FREE_SEGMENTS, 4),
        (segment_place(3), 0),
        (segment(0) + COUNT, 0),
        (segment(0) + NEXT, 0),
        (queue_head(0, 0), 4),
    ];
    // The stack's entry was the segment taken before: it is written over.
    assert_eq!(changes(&before, &core), due);
}

#[test]
fn kept_and_empty_takes_change_no_word() {
    let mut core = Core::open(1, 8);
    let before = core.clone();
    assert_eq!([core.peek(0, 0), core.take(0, 0)], [Empty; 2]);
    assert!(core.0 == before.0);
    // The second value stands in a segment of its own.
    core.push_run(0, 1, &[5, 6]);
    let pushed = core.clone();
    assert_eq!([core.peek(0, 1), core.peek(0, 1)], [Moved(5); 2]);
    assert!(core.0 == pushed.0);
    assert_eq!(core.take(0, 1), Moved(5));
    assert_eq!(core.peek(0, 1), Moved(6));
}

#[test]
fn finishing_clears_the_record() {
    let mut core = Core::open(4, 8);
    core.spawn(0, 255);
    core.spawn(0, 85);
    core.finish(1);
    assert!(core.0[task(1)..task(2)].iter().all(|word| *word == 0));
    assert_eq!(core.get(FREE_TASKS), 126);
    assert_eq!(core.get(task_place(125)), 1);
    assert_eq!(older(&core.0, 2), NONE);
    assert_eq!(core.spawn(0, 0), Moved(1));
    assert_eq!(older(&core.0, 1), 2);
}

/// A push behind a child with an empty right view, then the link.
#[test]
fn head_goes_to_the_right_view_of_the_child() {
    let mut core = Core::open(4, 8);
    core.spawn(0, 1);
    core.spawn(0, 0);
    core.push(0, 0, 7);
    assert_eq!(core.views(1, 0), [E, (NL, 0), (4, NL)]);
    assert_eq!(core.views(0, 0), [E, (NL, 4), E]);
    core.finish(1);
    assert_eq!(core.views(0, 0), [(NL, NL), (NL, 4), E]);
    assert_eq!(core.queue_head(0, 0), 4);
    assert_eq!(core.free_segments(), [7, 6, 5, 0]);
    core.finish(2);
    core.sync(0);
    assert_eq!(core.views(0, 0), [E, (NL, 4), E]);
}

/// A push behind what a finished child left: the new segment is linked.
#[test]
fn new_segment_is_linked_behind_values() {
    let mut core = Core::open(4, 8);
    core.spawn(0, 1);
    core.push(1, 0, 6);
    core.finish(1);
    let before = core.clone();
    assert_eq!(core.push(0, 0, 7), Moved(7));
    let due = [
        (FREE_SEGMENTS, 3),
        (segment(0) + NEXT, 4),
        (segment(4) + COUNT, 1),
        (segment(4) + NEXT, NONE),
        (user_view(0, 0), NL),
        (children_view(0, 0) + TAIL_FROM_HEAD, NL),
        (user_view(0, 0) + TAIL_FROM_HEAD, 4),
        (value_place(4, 4, 0), 7),
    ];
    assert_eq!(changes(&before, &core), due);
}

/// A finish frees one segment for each queue, queue 0 first.
#[test]
fn order_of_freeing_in_one_finish() {
    let mut core = Core::open(4, 12);
    core.spawn(0, 85);
    for q in 0..4 {
        core.push(0, q, 7);
    }
    core.finish(1);
    assert_eq!(core.free_segments()[4..], [0, 1, 2, 3]);
}

/// The namer of the freed segment has no part in the call.
#[test]
fn queue_view_elsewhere_is_renamed() {
    let mut core = Core::open(4, 8);
    core.spawn(0, 1);
    core.spawn(0, 1);
    core.spawn(0, 2);
    core.push(2, 0, 7);
    assert_eq!(core.queue_head(3, 0), 0);
    core.finish(1);
    assert_eq!(core.queue_head(3, 0), 4);
    assert_eq!(core.peek(3, 0), Moved(7));
}

/// Nothing is linked over the place of a popper.
#[test]
fn no_link_over_a_popper() {
    let mut core = Core::open(4, 8);
    core.spawn(0, 1);
    core.spawn(0, 2);
    core.spawn(0, 1);
    core.push(3, 0, 7);
    assert_eq!(core.views(2, 0)[2], (4, NL));
    core.finish(1);
    assert_eq!(core.views(0, 0)[0], (NL, 0));
    assert_eq!(core.queue_head(2, 0), 0);
}

/// A returned view with a local head passes the empty children view.
#[test]
fn local_head_passes_an_empty_children_view() {
    let mut core = Core::open(4, 8);
    core.spawn(0, 1);
    core.spawn(0, 1);
    core.spawn(0, 2);
    core.spawn(2, 1);
    core.spawn(2, 1);
    core.push(5, 0, 9);
    assert_eq!(core.views(4, 0)[2], (4, NL));
    core.finish(4);
    assert_eq!(core.views(2, 0)[0], E);
    assert_eq!(core.views(1, 0)[2], (4, NL));
    assert_eq!(core.take(3, 0), Waits);
    core.finish(1);
    assert_eq!(core.take(3, 0), Moved(9));
}

/// One with a non-local head stays in the parent's children view.
#[test]
fn nonlocal_head_stays_with_the_parent() {
    let mut core = Core::open(4, 8);
    core.spawn(0, 1);
    core.spawn(1, 1);
    core.finish(2);
    assert_eq!(core.views(1, 0), [(NL, 0), E, E]);
    assert_eq!(core.views(0, 0), [E, E, E]);
}

/// The queue view goes to the oldest sibling that pops, else up.
#[test]
fn way_of_the_queue_view() {
    let mut core = Core::open(4, 8);
    core.spawn(0, 2);
    core.spawn(0, 1);
    core.spawn(0, 2);
    core.finish(2);
    assert_eq!(core.queue_head(1, 0), 0);
    core.finish(1);
    assert_eq!(core.queue_head(3, 0), 0);
    core.finish(3);
    assert_eq!(core.queue_head(0, 0), 0);
}

/// Link and queue view in one finish.
#[test]
fn queue_view_is_returned_with_its_new_head() {
    let mut core = Core::open(4, 8);
    core.spawn(0, 3);
    core.push(0, 0, 5);
    assert_eq!(core.views(1, 0), [E, (NL, 0), (4, NL)]);
    core.finish(1);
    assert_eq!(core.queue_head(0, 0), 4);
    assert_eq!(core.free_segments().last(), Some(&0));
}

#[test]
fn finished_top_keeps_its_views() {
    let mut core = Core::open(4, 8);
    core.spawn(0, 1);
    core.push(0, 0, 7);
    core.finish(1);
    core.finish(0);
    assert_eq!(core.views(0, 0), [E, (NL, 4), E]);
    assert_eq!(status(&core.0, 0), FINISHED);
    assert!(core.passes());
    assert_eq!(core.left(0, 0), Moved(7));
}
