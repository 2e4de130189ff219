//! Answers on memory of the core's own, one case for each place of document 01
//! that can be read in two ways.

use host::memory::*;

/// A child's spot stands before its spawner's, whatever it does later.
#[test]
fn spots_follow_the_tree() {
    let mut core = Core::open(4, 8);
    core.spawn(0, 255);
    core.spawn(1, 1);
    core.spawn(1, 2);
    assert_eq!(core.peek(1, 0), Waits);
    assert_eq!(core.peek(3, 0), Waits);
    core.finish(2);
    assert_eq!(core.peek(3, 0), Empty);
}

/// Any unfinished task with the right is a pusher, the caller aside.
#[test]
fn pushers() {
    let mut core = Core::open(4, 8);
    assert_eq!(core.peek(0, 0), Empty);
    core.spawn(0, 1);
    assert_eq!(core.peek(0, 0), Waits);
    assert_eq!(core.peek(0, 1), Empty);
    core.finish(1);
    assert_eq!(core.peek(0, 0), Empty);
}

/// A pusher counts wherever it stands before the caller, also behind a task without the right.
#[test]
fn far_pusher() {
    let mut core = Core::open(4, 8);
    core.spawn(0, 1);
    core.spawn(0, 8);
    core.spawn(0, 2);
    assert_eq!(core.take(3, 0), Waits);
    core.finish(1);
    assert_eq!(core.take(3, 0), Empty);
}

/// Pending is over steps in program order, not in time.
#[test]
fn pending_in_program_order() {
    let mut core = Core::open(4, 8);
    core.spawn(0, 1);
    core.spawn(0, 2);
    core.spawn(0, 1);
    core.push(3, 0, 20);
    core.push(1, 0, 10);
    assert_eq!(core.take(2, 0), Moved(10));
    assert_eq!(core.take(2, 0), Waits);
    core.finish(1);
    assert_eq!(core.take(2, 0), Empty);
}

/// Any shared pop right makes every call wait.
#[test]
fn older_sibling_with_a_shared_pop_right() {
    let mut core = Core::open(4, 8);
    core.spawn(0, 8);
    core.spawn(0, 8 | 1);
    assert_eq!(core.push(2, 0, 5), Waits);
    assert_eq!(core.sync(2), Waits);
    core.finish(1);
    assert_eq!(core.push(2, 0, 5), Moved(5));
}

/// A popping child on this queue makes a take wait.
#[test]
fn popping_child() {
    let mut core = Core::open(4, 8);
    core.push(0, 0, 5);
    core.spawn(0, 2);
    assert_eq!(core.take(0, 0), Waits);
    assert_eq!(core.peek(0, 0), Waits);
    let mut other = Core::open(4, 8);
    other.push(0, 0, 5);
    other.spawn(0, 8);
    assert_eq!(other.take(0, 0), Moved(5));
}

/// Values behind a sibling's queue view are found by the next popper.
#[test]
fn second_popper_finds_the_rest() {
    let mut core = Core::open(2, 8);
    for value in 0..5 {
        core.push(0, 0, value);
    }
    core.spawn(0, 2);
    core.spawn(0, 2);
    assert_eq!(core.take(1, 0), Moved(0));
    assert_eq!(core.take(2, 0), Waits);
    core.finish(1);
    for value in 1..5 {
        assert_eq!(core.take(2, 0), Moved(value));
    }
    assert_eq!(core.take(2, 0), Empty);
}

/// Fullness goes by the count: one segment serves for ever.
#[test]
fn one_segment_is_used_again() {
    let mut core = Core::open(1, 4);
    core.spawn(0, 1);
    core.spawn(0, 2);
    for value in 0..9 {
        assert_eq!(core.push(1, 0, value), Moved(value));
        assert_eq!(core.push(1, 0, value), Refused(9));
        assert_eq!(core.take(2, 0), Moved(value));
    }
}

/// Sync and finish wait for any child, one without rights too.
#[test]
fn sync_and_finish_wait_for_children() {
    let mut core = Core::open(4, 8);
    core.spawn(0, 0);
    assert_eq!(core.sync(0), Waits);
    assert_eq!(core.finish(0), Waits);
    core.finish(1);
    assert_eq!(core.sync(0), Moved(0));
    assert_eq!(core.finish(0), Moved(0));
}

/// Several segments in a row are left in order.
#[test]
fn left_counts_along_the_chain() {
    let mut core = Core::open(3, 16);
    for value in 10..20 {
        core.push(0, 2, value);
    }
    core.take(0, 2);
    core.take(0, 2);
    core.finish(0);
    for index in 0..8 {
        assert_eq!(core.left(2, index), Moved(12 + index));
    }
    assert_eq!(core.left(2, 8), Refused(7));
}

/// Task records are used again, the last freed first.
#[test]
fn numbers_of_tasks_are_used_again() {
    let mut core = Core::open(4, 8);
    for number in 1..=5 {
        assert_eq!(core.spawn(0, 1), Moved(number));
    }
    for number in [2, 5, 3] {
        core.finish(number);
    }
    for number in [3, 5, 2, 6] {
        assert_eq!(core.spawn(0, 1), Moved(number));
    }
}
