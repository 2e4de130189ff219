//! Memory that passes the rules and was not made by the core's calls: cases
//! made by hand, and random ones.

use host::layout::*;
use host::memory::*;
use host::random::Random;
use host::sample::likely_call;
use host::views::{self, Reduction};
use host::{broken, fast, foreign, hand, late, rules, tree};

/// A push would reduce a local head into a non-local tail: 2, but 9 where no
/// segment is free.
#[test]
fn push_into_a_nonlocal_tail() {
    for (segments, due) in [(8, Refused(2)), (5, Refused(9))] {
        assert_eq!(hand::nonlocal_tail(segments).push(0, 0, 9), due);
    }
}

/// A finish would link a segment to itself: 2.
#[test]
fn finish_that_links_a_segment_to_itself() {
    assert_eq!(hand::finish_to_itself().finish(1), Refused(2));
}

/// A finish that closes a ring of two segments moves; the next call gets 2.
#[test]
fn finish_that_closes_a_ring() {
    for (values, ring) in [(vec![7], [5, 4]), (vec![], [4, 0])] {
        let mut core = hand::ring(&values);
        assert_eq!(core.finish(1), Moved(0));
        assert_eq!([next(&core.0, 4), next(&core.0, 5)], ring);
        assert_eq!(core.broken(), Some("no ring of nexts"));
        assert_eq!(core.peek(0, 0), Refused(2));
    }
}

/// Sync and the top's finish can need the reduction of a segment with itself.
#[test]
fn sync_that_links_a_segment_to_itself() {
    let mut core = hand::sync_to_itself(&[6]);
    assert_eq!(core.sync(0), Refused(2));
    assert_eq!(core.finish(0), Refused(2));
}

/// A user view with a non-local tail needs no segment: 2, though none is free.
#[test]
fn push_with_a_nonlocal_user_tail() {
    assert_eq!(hand::nonlocal_user_tail(4).push(0, 0, 9), Refused(2));
}

/// A push into an empty view between two non-local ends moves; the order of the
/// views is broken afterwards.
#[test]
fn push_between_nonlocal_ends() {
    let mut core = hand::only_right();
    assert_eq!(core.push(0, 0, 9), Moved(9));
    assert_eq!(core.views(0, 0), [(4, NL), (NL, 4), (NL, 0)]);
    assert_eq!(core.broken(), Some("order of the views"));
    assert_eq!(core.take(0, 0), Refused(2));
}

/// Queue 3 is left out: nothing of queue 0 is written.
#[test]
fn late_refusal_writes_nothing() {
    assert_eq!(hand::last_queue_left_out().finish(1), Refused(2));
}

/// Within one queue a head counts as it is after the freeing in front of it.
#[test]
fn late_refusal_sees_the_freed_segment() {
    assert_eq!(hand::freed_before().finish(1), Refused(2));
}

/// A link of queue 0 renames a head of queue 1; the decision does not look at
/// that, and applying goes on.
#[test]
fn link_renames_another_queue() {
    for values in [vec![6], vec![]] {
        let mut core = hand::renamed(&values);
        assert_eq!(core.finish(1), Moved(0));
        assert_eq!(core.views(0, 1)[0], (NL, NL));
        assert_three_rules(&core.0);
    }
}

/// The next of the held segment in front is renamed, and not that of a free one.
#[test]
fn link_renames_a_next() {
    let mut core = hand::empty_behind();
    assert_eq!(core.finish(1), Moved(0));
    assert_eq!([next(&core.0, 6), next(&core.0, 4)], [7, 5]);
    assert_eq!(core.free_segments(), [4, 5]);
    assert_eq!(core.broken(), None);
}

/// The top's finish reduces children and user view only.
#[test]
fn finished_top_keeps_its_right_view() {
    let mut core = hand::right_apart();
    assert_eq!(core.finish(0), Moved(0));
    assert_eq!(core.views(0, 0), [E, (NL, 0), (4, 4)]);
    assert_eq!(core.left(0, 0), Moved(5));
    assert_eq!(core.left(0, 1), Refused(7));
}

/// A chain may end in another queue.
#[test]
fn chains_between_queues() {
    let mut core = hand::crossed();
    assert_eq!(core.push(0, 0, 9), Moved(9));
    assert_eq!(core.take(0, 0), Empty);
    assert_eq!(core.take(0, 1), Moved(9));
}

/// A popper without the queue view has nothing pending.
#[test]
fn popper_without_the_queue_view() {
    let mut core = hand::popper_without_view();
    assert_eq!(core.take(1, 0), Empty);
    assert_eq!(core.peek(1, 0), Empty);
}

/// A value in the caller's chain is found with no regard to pushers.
#[test]
fn value_before_a_pusher() {
    let mut core = hand::value_before_pusher();
    assert_eq!(core.take(2, 0), Moved(5));
    assert_eq!(core.take(2, 0), Waits);
}

/// A task with the push right alone may hold the queue view, and returns it.
#[test]
fn pusher_with_the_queue_view() {
    let mut core = hand::pusher_with_view();
    core.finish(1);
    assert_eq!(core.queue_head(0, 0), 0);
    assert_eq!(core.broken(), None);
}

/// An aunt with a shared pop right does not make a task wait; an older sibling
/// does.
#[test]
fn aunt_with_a_shared_pop_right() {
    let mut core = hand::aunt();
    assert_eq!(core.sync(2), Waits);
    assert_eq!(core.sync(3), Moved(0));
}

#[test]
fn hand_made_memories_pass() {
    for (name, m) in hand::passing() {
        assert_eq!(rules::first_broken(&m), None, "{name}");
        assert!(fast::hold(&m), "{name}");
    }
}

/// Each memory breaks its rule, and none before it; every rule is broken.
#[test]
fn hand_made_memories_break_a_rule() {
    let list = broken::all();
    for (rule, (name, m)) in &list {
        let mut core = Core(m.clone());
        assert_eq!(core.broken(), Some(*rule), "{name}");
        assert_eq!(core.sync(0), Refused(2), "{name}");
    }
    for (rule, _) in rules::RULES {
        assert!(list.iter().any(|(broken, _)| *broken == rule), "{rule}");
    }
}

/// The words of free records and the spare words mean nothing.
#[test]
fn words_without_meaning() {
    let mut core = Core::open(4, 8);
    core.spawn(0, 3);
    for i in 1..TASK_WORDS {
        core.put(task(9) + i, 4_000);
    }
    for address in [
        4,
        63,
        segment(8),
        segment(3) + 3,
        7_616,
        8_191,
        task(1) + 6,
        task(1) + 44,
    ] {
        core.put(address, 4_000);
    }
    assert_eq!(core.broken(), None);
    assert_eq!(core.spawn(0, 0), Moved(2));
    assert_eq!(core.get(task(1) + 44), 4_000);
}

/// The rules that document 01 names for after each moving call.
fn assert_three_rules(m: &[u32]) {
    assert!(rules::held_named_once(m));
    assert!(rules::ends_named_by_tails(m));
    assert!(rules::no_empty_with_next(m));
    assert!(rules::segments_held_or_free(m));
}

/// One queue of a finish, tried on a copy: is a reduction left out?
fn finish_tried(m: &[u32], t: u32, q: u32) -> bool {
    let mut copy = m.to_vec();
    let user = user_view(t, q);
    let own = [(children_view(t, q), user), (user, right_view(t, q))];
    for (left, right) in own {
        let case = views::case_of(views::read(&copy, left), views::read(&copy, right));
        if case == Reduction::LeftOut {
            return true;
        }
        views::join(&mut copy, left, right, user);
    }
    let whole = views::read(&copy, user);
    if whole.is_empty() {
        return false;
    }
    let place = views::place_of_returned(&copy, t, q, whole.head);
    views::case_of(views::read(&copy, place), whole) == Reduction::LeftOut
}

/// Random memory passes both forms of the rules, and no call fails on it.
#[test]
fn random_memories() {
    let mut r = Random::new(5);
    let (mut moved, mut late, mut passing) = (0, 0, 0);
    for _ in 0..3_000 {
        let mut m = foreign::memory(&mut r);
        assert_eq!(rules::first_broken(&m), None);
        assert!(fast::hold(&m));
        for _ in 0..6 {
            let kind = r.pick(&[1, 2, 2, 2, 3, 4, 5, 6, 7]);
            let call = likely_call(&mut r, &m, kind);
            let before = m.clone();
            let answer = call.make(&mut m);
            if !answer.moved() {
                assert!(m == before, "{call} is {answer:?} and changes words");
                late += u32::from(answer == Refused(2));
                continue;
            }
            moved += 1;
            assert_three_rules(&m);
            assert_eq!(fast::hold(&m), rules::hold(&m));
            if !rules::hold(&m) {
                break;
            }
            passing += 1;
        }
    }
    println!("{moved} calls moved, {late} late refusals, {passing} pass afterwards");
    assert!(moved > 4_000 && late > 20 && passing < moved);
}

/// The decision ahead of a finish is what a trial on a copy says.
#[test]
fn late_refusals_against_trials() {
    let mut r = Random::new(6);
    let (mut left_out, mut fine) = (0, 0);
    for _ in 0..4_000 {
        let m = foreign::memory(&mut r);
        for t in tree::backward(&m) {
            if t == 0 || youngest(&m, t) != NONE {
                continue;
            }
            let tried = (0..4).any(|q| finish_tried(&m, t, q));
            assert_eq!(late::finish_left_out(&m, t), tried);
            left_out += u32::from(tried);
            fine += u32::from(!tried);
        }
    }
    println!("{left_out} left out, {fine} fine");
    assert!(left_out > 20 && fine > 2_000);
}
