//! Memories made by hand that pass the rules, though no calls lead to them.

use crate::layout::*;
use crate::memory::{Calls, Core, E};

/// A memory with a name.
pub type Named = (String, Vec<u32>);

pub fn passing() -> Vec<Named> {
    [
        ("push into a non-local tail", nonlocal_tail(8)),
        ("the same, no segment free", nonlocal_tail(5)),
        ("non-local user tail", nonlocal_user_tail(8)),
        ("the same, no segment free", nonlocal_user_tail(4)),
        ("only a right view", only_right()),
        ("finish links a segment to itself", finish_to_itself()),
        ("finish closes a ring", ring(&[7])),
        ("finish closes a ring, one empty", ring(&[])),
        ("sync links a segment to itself", sync_to_itself(&[6])),
        ("the same, empty", sync_to_itself(&[])),
        ("queue 3 left out", last_queue_left_out()),
        ("self-link after a freed segment", freed_before()),
        ("a link renames another queue's head", renamed(&[6])),
        ("the same, empty", renamed(&[])),
        ("a link renames a next", empty_behind()),
        ("right view of the top", right_apart()),
        ("chains between queues", crossed()),
        ("chains between queues and tasks", crossed_tasks()),
        ("popper without the queue view", popper_without_view()),
        ("value before a pusher", value_before_pusher()),
        ("pusher with the queue view", pusher_with_view()),
        ("aunt with a shared pop right", aunt()),
        ("local head in a children view", local_children_head(4)),
        ("the same, non-local tail", local_children_head(NL)),
    ]
    .map(|(name, core)| (name.to_string(), core.0))
    .to_vec()
}

/// The top and its child 1 with the push right on queue 0, and segment 4 held.
pub fn with_child(segments: u32) -> Core {
    let mut core = Core::open(4, segments);
    core.spawn(0, 1);
    core.set_held(&[0, 1, 2, 3, 4]);
    core
}

/// The view just before the top's push has a non-local tail.
pub fn nonlocal_tail(segments: u32) -> Core {
    let mut core = with_child(segments);
    core.set_segment(4, &[], NONE);
    core.set_views(1, 0, [E, (NL, 0), (4, NL)]);
    core.set_views(0, 0, [E, E, (NL, 4)]);
    core
}

/// The top's user view has a non-local tail.
pub fn nonlocal_user_tail(segments: u32) -> Core {
    let mut core = Core::open(4, segments);
    core.set_views(0, 0, [E, (NL, NL), (NL, 0)]);
    core
}

/// Of the top's views only the right one is not empty, with a non-local head.
pub fn only_right() -> Core {
    let mut core = Core::open(4, 8);
    core.set_views(0, 0, [E, E, (NL, 0)]);
    core
}

/// The child's finish has to link segment 4 to itself.
pub fn finish_to_itself() -> Core {
    let mut core = with_child(8);
    core.set_segment(4, &[6], NONE);
    core.set_views(1, 0, [E, (NL, 4), (4, NL)]);
    core.set_views(0, 0, [E, (NL, 0), E]);
    core
}

/// The child's finish links segment 5, with these values, to segment 4, whose
/// next it is.
pub fn ring(values: &[u32]) -> Core {
    let mut core = with_child(8);
    core.set_held(&[0, 1, 2, 3, 4, 5]);
    core.set_segment(4, &[6], 5);
    core.set_segment(5, values, NONE);
    core.set_views(1, 0, [E, (NL, 5), (4, NL)]);
    core.set_views(0, 0, [E, (NL, 0), E]);
    core
}

/// The top's sync has to link segment 4, with these values, to itself.
pub fn sync_to_itself(values: &[u32]) -> Core {
    let mut core = Core::open(4, 8);
    core.set_held(&[0, 1, 2, 3, 4]);
    core.set_segment(4, values, NONE);
    core.set_views(0, 0, [(NL, 4), (4, NL), (NL, 0)]);
    core
}

/// The child's finish can be made for queues 0 to 2, and not for queue 3.
pub fn last_queue_left_out() -> Core {
    let mut core = Core::open(4, 8);
    core.spawn(0, 255);
    core.push(0, 0, 5);
    core.set_held(&[0, 1, 2, 3, 4, 5]);
    core.set_segment(5, &[6], NONE);
    core.set_views(1, 3, [E, (NL, 5), (5, NL)]);
    core.set_views(0, 3, [E, (NL, 3), E]);
    core
}

/// Segment 4 is empty and is freed by the child's finish, so that the head of
/// the right view becomes 5.
pub fn freed_before() -> Core {
    let mut core = with_child(8);
    core.set_held(&[0, 1, 2, 3, 4, 5]);
    core.set_segment(4, &[], NONE);
    core.set_segment(5, &[6], NONE);
    core.set_views(1, 0, [(NL, 4), (5, 5), (4, NL)]);
    core.set_views(0, 0, [E, (NL, 0), E]);
    core
}

/// A link of queue 0, made by the child's finish, renames a head of queue 1.
pub fn renamed(values: &[u32]) -> Core {
    let mut core = Core::open(4, 8);
    core.spawn(0, 5);
    core.set_held(&[0, 1, 2, 3, 4, 5]);
    core.set_segment(4, &[], NONE);
    core.set_segment(5, values, NONE);
    core.set_views(1, 0, [(NL, 4), (5, NL), E]);
    core.set_views(1, 1, [E, (NL, 5), (4, NL)]);
    core.set_views(0, 0, [E, (NL, 0), E]);
    core.set_views(0, 1, [E, (NL, 1), E]);
    core
}

/// A link made by the child's finish frees segment 5, which is empty and stands
/// behind segment 6. Segment 4 is free, and its record names 5 too.
pub fn empty_behind() -> Core {
    let mut core = with_child(8);
    core.set_held(&[0, 1, 2, 3, 5, 6, 7]);
    core.set_segment(0, &[1], 6);
    core.set_segment(6, &[2], 5);
    core.set_segment(5, &[], NONE);
    core.set_segment(7, &[3], NONE);
    core.put(segment(4) + NEXT, 5);
    core.set_views(1, 0, [E, (NL, 5), (7, NL)]);
    core.set_views(0, 0, [E, (NL, 7), E]);
    core
}

/// The top's user and right view each have a chain of their own.
pub fn right_apart() -> Core {
    let mut core = Core::open(4, 8);
    core.set_held(&[0, 1, 2, 3, 4]);
    core.set_segment(0, &[5], NONE);
    core.set_segment(4, &[6], NONE);
    core.set_views(0, 0, [E, (NL, 0), (4, 4)]);
    core
}

/// The chains of queues 0 and 1 end in each other's user view.
pub fn crossed() -> Core {
    let mut core = Core::open(4, 8);
    core.set_views(0, 0, [E, (NL, 1), E]);
    core.set_views(0, 1, [E, (NL, 0), E]);
    core
}

/// All four chains end in another queue, two of them at a child.
pub fn crossed_tasks() -> Core {
    let mut core = Core::open(2, 8);
    core.spawn(0, 0b1111);
    core.set_views(1, 0, [E, (NL, 3), E]);
    core.set_views(1, 1, [E, (NL, 2), E]);
    core.set_views(0, 2, [E, (NL, 1), E]);
    core.set_views(0, 3, [E, (NL, 0), E]);
    core.set_segment(0, &[1, 2], NONE);
    core.set_segment(3, &[4], NONE);
    core
}

/// Child 1 has the pop right on queue 0; the queue view is with the top.
pub fn popper_without_view() -> Core {
    let mut core = Core::open(4, 8);
    core.push(0, 0, 5);
    core.spawn(0, 2);
    core.put(queue_head(1, 0), NONE);
    core.put(queue_head(0, 0), 0);
    core
}

/// The value before the popper, child 2, stands behind the pusher, child 1.
pub fn value_before_pusher() -> Core {
    let mut core = Core::open(4, 8);
    core.spawn(0, 1);
    core.spawn(0, 2);
    core.set_segment(0, &[5], NONE);
    core.set_views(1, 0, [E, E, E]);
    core.set_views(2, 0, [E, (NL, 0), E]);
    core
}

/// Child 1 has the push right alone, and the queue view.
pub fn pusher_with_view() -> Core {
    let mut core = Core::open(4, 8);
    core.spawn(0, 1);
    core.put(queue_head(0, 0), NONE);
    core.put(queue_head(1, 0), 0);
    core
}

/// Tasks 1 and 2 and a child of task 2 all have the pop right on queue 0.
pub fn aunt() -> Core {
    let mut core = Core::open(4, 8);
    core.spawn(0, 1);
    core.spawn(0, 2);
    core.spawn(2, 2);
    core.put(task(1) + RIGHTS, 2);
    core
}

/// Child 1 has children's values from segment 4 on; its tail may be non-local,
/// and segment 4 then ends the user view.
pub fn local_children_head(tail: u32) -> Core {
    let mut core = with_child(8);
    core.set_segment(0, &[5], NONE);
    core.set_segment(4, &[6], NONE);
    let user = if tail == NL { (NL, 4) } else { E };
    core.set_views(1, 0, [(4, tail), user, E]);
    core.set_views(0, 0, [(NL, 0), E, E]);
    core
}
