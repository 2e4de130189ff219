//! The starred cases of document 01 that the core alone decides, with what
//! document 02 makes of those with 7; its three traps, and its run in full.

use host::memory::*;

#[test]
fn one_place_and_four_segments() {
    let mut core = Core::open(1, 4);
    assert_eq!(core.push(0, 0, 5), Moved(5));
    assert_eq!(core.push(0, 0, 6), Refused(9));
}

#[test]
fn longest_segments() {
    let mut words = vec![0; host::layout::WORDS];
    assert_eq!(host::calls::open(&mut words, 64, 128), Moved(0));
    assert_eq!(host::calls::open(&mut words, 64, 129), Refused(3));
}

#[test]
fn children_up_to_127() {
    let mut core = Core::open(4, 8);
    for number in 1..=127 {
        assert_eq!(core.spawn(0, 0), Moved(number));
    }
    assert_eq!(core.spawn(0, 0), Refused(8));
}

#[test]
fn new_queue_is_empty() {
    let mut core = Core::open(4, 8);
    for q in 0..4 {
        assert_eq!(core.peek(0, q), Empty);
        assert_eq!(core.take(0, q), Empty);
    }
}

#[test]
fn popper_after_an_idle_pusher() {
    let mut core = Core::open(4, 8);
    assert_eq!(core.spawn(0, 1), Moved(1));
    assert_eq!(core.spawn(0, 2), Moved(2));
    assert_eq!(core.take(2, 0), Waits);
    assert_eq!(core.finish(1), Moved(0));
    assert_eq!(core.take(2, 0), Empty);
}

#[test]
fn popper_sees_what_was_pushed_before_it() {
    let mut core = Core::open(4, 8);
    assert_eq!(core.push(0, 0, 5), Moved(5));
    assert_eq!(core.spawn(0, 2), Moved(1));
    assert_eq!(core.push(0, 0, 6), Moved(6));
    assert_eq!(core.take(1, 0), Moved(5));
    assert_eq!(core.take(1, 0), Empty);
    assert_eq!(core.finish(1), Moved(0));
    assert_eq!(core.take(0, 0), Moved(6));
}

#[test]
fn child_is_given_no_more() {
    let mut core = Core::open(4, 8);
    assert_eq!(core.spawn(0, 1), Moved(1));
    assert_eq!(core.spawn(1, 3), Refused(6));
    assert_eq!(core.spawn(1, 1), Moved(2));
}

/// Trap: linking a parent's push to its left neighbour while its own child is
/// still pushing.
#[test]
fn parent_pushes_behind_its_child() {
    let mut core = Core::open(4, 8);
    core.spawn(0, 1);
    core.push(0, 0, 7);
    core.push(1, 0, 6);
    assert_eq!(core.finish(1), Moved(0));
    assert_eq!(core.take(0, 0), Moved(6));
    assert_eq!(core.take(0, 0), Moved(7));
    assert_eq!(core.take(0, 0), Empty);
}

/// The same trap with a left sibling of the parent: 2 has the child 3.
#[test]
fn nested_parent_pushes_behind_its_child() {
    let mut core = Core::open(4, 12);
    core.spawn(0, 1);
    core.spawn(0, 1);
    core.spawn(2, 1);
    core.push(2, 0, 9);
    core.push(3, 0, 8);
    core.push(1, 0, 7);
    core.finish(1);
    assert_eq!(core.peek(0, 0), Moved(7));
    core.finish(3);
    core.finish(2);
    let taken: Vec<u32> = (0..3).map(|_| core.take(0, 0).value()).collect();
    assert_eq!(taken, [7, 8, 9]);
}

/// Trap: calling a queue empty because the reachable chain is.
#[test]
fn pending_behind_a_pusher_is_not_empty() {
    let mut core = Core::open(4, 8);
    core.spawn(0, 1);
    core.push(0, 0, 9);
    assert_eq!(core.peek(0, 0), Waits);
    assert_eq!(core.take(0, 0), Waits);
    assert_eq!(core.finish(1), Moved(0));
    assert_eq!(core.peek(0, 0), Moved(9));
    assert_eq!(core.take(0, 0), Moved(9));
}

/// Trap: letting a younger pusher fill the segment hidden with a popper.
#[test]
fn younger_pusher_is_hidden_from_the_popper() {
    let mut core = Core::open(4, 8);
    core.push(0, 0, 5);
    core.spawn(0, 2);
    core.spawn(0, 1);
    assert_eq!(core.push(2, 0, 6), Moved(6));
    assert_eq!(core.take(1, 0), Moved(5));
    assert_eq!(core.take(1, 0), Empty);
    assert_eq!(core.peek(1, 0), Empty);
    core.finish(1);
    assert_eq!(core.take(0, 0), Moved(6));
}

/// The run in full, with the core calls that its job makes.
#[test]
fn run_in_full() {
    let mut core = Core::open(4, 256);
    assert_eq!(core.spawn(0, 1), Moved(1));
    assert_eq!(core.spawn(0, 2), Moved(2));
    assert_eq!(core.spawn(0, 1), Moved(3));
    assert_eq!(core.push(3, 0, 20), Moved(20));
    assert_eq!(core.take(2, 0), Waits);
    assert_eq!(core.push(1, 0, 10), Moved(10));
    assert_eq!(core.take(2, 0), Moved(10));
    assert_eq!(core.finish(1), Moved(0));
    assert_eq!(core.finish(2), Moved(0));
    assert_eq!(core.finish(3), Moved(0));
    assert_eq!(core.sync(0), Moved(0));
    assert_eq!(core.finish(0), Moved(0));
    assert_eq!(core.left(0, 0), Moved(20));
    assert_eq!(core.left(0, 1), Refused(7));
    assert_eq!(core.left(1, 0), Refused(7));
}
