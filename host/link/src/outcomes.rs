//! Every outcome of the seven calls that docs/OUTCOMES.md lists, in its order: a
//! few calls lead to each, made on the linked library and on the model, and the
//! answer has to be the one named here.

use crate::page_guarded::PageGuarded;
use crate::pair::Pair;
use host::answer::Answer;
use host::call::Call;
use host::hand;
use host::layout::*;
use host::memory::*;

impl Calls for Pair {
    fn make(&mut self, call: &Call) -> Answer {
        Pair::make(self, call).unwrap_or_else(|what| panic!("{what}"))
    }
}

fn on(words: &[u32]) -> Pair {
    let mut core = Pair::default();
    core.set(words);
    core
}

fn opened(length: u32, segments: u32) -> Pair {
    let mut core = on(&[7; WORDS]);
    let open = Call::Open { length, segments };
    assert_eq!(Calls::make(&mut core, &open), Moved(0));
    core
}

/// After spawns by the top, with these rights.
fn spawned(all: &[u32]) -> Pair {
    let mut core = opened(4, 8);
    for (rights, number) in all.iter().zip(1..) {
        assert_eq!(core.spawn(0, *rights), Moved(number));
    }
    core
}

/// The call gets 1 on one word too few or too many, and 2 on zeros.
fn tests_memory(call: &Call) {
    for (number, due) in [(WORDS - 1, 1), (WORDS + 1, 1), (WORDS, 2)] {
        let mut core = on(&vec![0; number]);
        assert_eq!(Calls::make(&mut core, call), Refused(due), "{call}");
    }
}

fn view(core: &Pair, place: usize) -> (u32, u32) {
    (
        get(&core.model, place),
        get(&core.model, place + TAIL_FROM_HEAD),
    )
}

fn free_segments(core: &Pair) -> Vec<u32> {
    host::rules::free_segments(&core.model)
}

/// The stack of free segments, which is [7, 6, 5, 4], with a number twice, without
/// one that nothing names, with one that is no segment, and too high.
#[test]
fn wrong_stack() {
    let changes: [&[(usize, u32)]; 4] = [
        &[(segment_place(3), 5)],
        &[(segment_place(2), 4), (FREE_SEGMENTS, 3)],
        &[(segment_place(0), 8)],
        &[(FREE_SEGMENTS, 9)],
    ];
    for change in changes {
        let mut words = opened(4, 8).model;
        assert_eq!(on(&words).sync(0), Moved(0));
        for (place, word) in change {
            words[*place] = *word;
        }
        assert_eq!(on(&words).sync(0), Refused(2), "{change:?}");
    }
}

#[test]
fn open() {
    for (number, length, segments, due) in [
        (WORDS - 1, 4, 8, Refused(1)),
        (WORDS + 1, 0, 0, Refused(1)),
        (WORDS, 0, 8, Refused(3)),
        (WORDS, 65, 4, Refused(3)),
        (WORDS, 4, 3, Refused(3)),
        (WORDS, 4, 257, Refused(3)),
        (WORDS, 64, 129, Refused(3)),
        (WORDS, 64, 128, Moved(0)),
    ] {
        let mut core = on(&vec![7; number]);
        let call = Call::Open { length, segments };
        assert_eq!(Calls::make(&mut core, &call), due, "{call}");
    }
}

#[test]
fn spawn() {
    tests_memory(&Call::Spawn { task: 0, rights: 0 });
    let mut core = opened(4, 8);
    assert_eq!(core.spawn(128, 0), Refused(4));
    assert_eq!(core.spawn(1, 0), Refused(4));
    assert_eq!(core.spawn(0, 256), Refused(6));
    assert_eq!(core.spawn(0, 2), Moved(1));
    assert_eq!(core.spawn(0, 2), Moved(2));
    assert_eq!([youngest(&core.model, 0), older(&core.model, 2)], [2, 1]);
    assert_eq!(core.spawn(2, 0), Waits);
    for number in 3..128 {
        assert_eq!(core.spawn(0, 0), Moved(number));
    }
    assert_eq!(core.spawn(0, 0), Refused(8));
}

#[test]
fn push() {
    tests_memory(&Call::push(0, 0, &[5]));
    let mut core = spawned(&[2, 3]);
    assert_eq!(core.push(3, 0, 5), Refused(4));
    assert_eq!(core.push(0, 4, 5), Refused(5));
    assert_eq!(core.push(1, 0, 5), Refused(6));
    assert_eq!(core.push(2, 0, 5), Waits);
    // 9: the user view is empty, no segment is free.
    let mut core = opened(1, 4);
    core.spawn(0, 1);
    assert_eq!(core.push(0, 0, 5), Refused(9));
    // The late 2, by the view just before and by the user view.
    assert_eq!(on(&hand::nonlocal_tail(8).0).push(0, 0, 9), Refused(2));
    assert_eq!(on(&hand::nonlocal_user_tail(8).0).push(0, 0, 9), Refused(2));
}

#[test]
fn push_into_its_user_view() {
    let mut core = opened(1, 5);
    assert_eq!(core.push(0, 0, 5), Moved(5));
    assert_eq!(view(&core, user_view(0, 0)), (NL, 0));
    // A new segment behind the full one, then none is free.
    assert_eq!(core.push(0, 0, 6), Moved(6));
    assert_eq!(view(&core, user_view(0, 0)), (NL, 4));
    assert_eq!(next(&core.model, 0), 4);
    assert_eq!(core.push(0, 0, 7), Refused(9));
}

/// The head of the new segment goes into an empty view, behind an empty segment
/// and behind one with values.
#[test]
fn push_of_a_new_segment() {
    let mut core = spawned(&[1]);
    assert_eq!(core.push(0, 0, 7), Moved(7));
    assert_eq!(view(&core, right_view(1, 0)), (4, NL));

    let mut core = spawned(&[1]);
    core.finish(1);
    assert_eq!(core.push(0, 0, 7), Moved(7));
    assert_eq!(get(&core.model, queue_head(0, 0)), 4);
    assert_eq!(free_segments(&core), [7, 6, 5, 0]);

    let mut core = spawned(&[1]);
    core.push(1, 0, 6);
    core.finish(1);
    assert_eq!(core.push(0, 0, 7), Moved(7));
    assert_eq!(next(&core.model, 0), 4);
    assert_eq!(free_segments(&core), [7, 6, 5]);
    assert_eq!([core.take(0, 0), core.take(0, 0)], [Moved(6), Moved(7)]);
}

/// A run of none is tested as any other, and needs no segment.
#[test]
fn push_of_none() {
    tests_memory(&Call::push(0, 0, &[]));
    let mut core = spawned(&[2, 3]);
    assert_eq!(core.push_run(3, 0, &[]), Refused(4));
    assert_eq!(core.push_run(0, 4, &[]), Refused(5));
    assert_eq!(core.push_run(1, 0, &[]), Refused(6));
    assert_eq!(core.push_run(2, 0, &[]), Waits);
    // The user view is empty and no segment is free; it ends non-locally; so
    // does the view just before it.
    let mut full = opened(1, 4);
    full.spawn(0, 1);
    let late = [hand::nonlocal_user_tail(4).0, hand::nonlocal_tail(5).0];
    for words in [vec![full.model], late.to_vec()].concat() {
        let mut core = on(&words);
        assert_eq!(core.push_run(0, 0, &[]), Moved(0));
        assert!(core.model == words);
    }
}

/// Into the tail segment, around its end, and on into new segments; all or none.
#[test]
fn push_of_a_run() {
    let mut core = opened(3, 6);
    assert_eq!(core.push_run(0, 0, &[1, 2]), Moved(2));
    core.take(0, 0);
    core.take(0, 0);
    let run: Vec<u32> = (3..13).collect();
    assert_eq!(core.push_run(0, 0, &run), Refused(9));
    assert_eq!(core.push_run(0, 0, &run[..9]), Moved(11));
    assert_eq!(view(&core, user_view(0, 0)), (NL, 5));
    assert_eq!(free_segments(&core), []);
    for value in 3..12 {
        assert_eq!(core.take(0, 0), Moved(value));
    }
    assert_eq!(core.take(0, 0), Empty);
    let mut core = opened(4, 4);
    assert_eq!(core.push_run(0, 0, &[1, 2, 3, 4, 5]), Refused(9));
    assert_eq!(core.take(0, 0), Empty);
}

/// The segment that the first link frees is taken next; it is not there for the
/// first value.
#[test]
fn push_of_a_run_that_frees_a_segment() {
    let after_an_idle_child = |segments| {
        let mut core = opened(1, segments);
        core.spawn(0, 1);
        core.finish(1);
        core
    };
    let mut core = after_an_idle_child(5);
    assert_eq!(core.push_run(0, 0, &[5, 6, 7]), Refused(9));
    assert_eq!(core.push_run(0, 0, &[5, 6]), Moved(6));
    assert_eq!(get(&core.model, queue_head(0, 0)), 4);
    assert_eq!([next(&core.model, 4), next(&core.model, 0)], [0, NONE]);
    assert_eq!([core.take(0, 0), core.take(0, 0)], [Moved(5), Moved(6)]);
    assert_eq!(after_an_idle_child(4).push_run(0, 0, &[5]), Refused(9));
}

/// 9 by the whole run goes before the late 2 of its first link, and behind that
/// of the user view. One segment, of four places, is free.
#[test]
fn push_of_a_run_and_the_late_2() {
    let just_before = hand::nonlocal_tail(6).0;
    let own = hand::nonlocal_user_tail(5).0;
    for (words, number, due) in [
        (&just_before, 4, 2),
        (&just_before, 5, 9),
        (&own, 4, 2),
        (&own, 5, 2),
    ] {
        let run = vec![5; number];
        assert_eq!(on(words).push_run(0, 0, &run), Refused(due), "{number}");
    }
    // The first link leaves memory that breaks a rule, and the run goes on.
    let mut core = on(&hand::only_right().0);
    let run: Vec<u32> = (0..10).collect();
    assert_eq!(core.push_run(0, 0, &run), Moved(9));
    assert_eq!(view(&core, user_view(0, 0)), (NL, 6));
    assert_eq!(core.push_run(0, 0, &[]), Refused(2));
}

/// More values than a word can count are too many, and none of them is read. The
/// low half of their number is one that fits.
#[test]
fn push_of_very_many() {
    for number in [70_000, 1 << 32, (1 << 32) + 1, (1 << 33) + 4] {
        let values = PageGuarded::zeros(number);
        let mut words = opened(4, 8).model;
        let before = words.clone();
        assert_eq!(
            hyperqueue::core::push(&mut words, 0, 0, values.values()).status,
            9
        );
        assert!(words == before);
    }
}

/// The tests of a take, with the value kept and taken.
fn finding(make: fn(&mut Pair, u32, u32) -> Answer) {
    let mut core = spawned(&[1, 2]);
    assert_eq!(make(&mut core, 3, 0), Refused(4));
    assert_eq!(make(&mut core, 0, 4), Refused(5));
    assert_eq!(make(&mut core, 1, 0), Refused(6));
    // For a pusher, an older sibling and a popping child.
    assert_eq!(make(&mut core, 2, 0), Waits);
    assert_eq!(make(&mut spawned(&[2, 2]), 2, 0), Waits);
    assert_eq!(make(&mut spawned(&[2]), 0, 0), Waits);
    // For a pusher that stands before a value.
    let mut core = spawned(&[1]);
    core.push(0, 0, 5);
    assert_eq!(make(&mut core, 0, 0), Waits);
    assert_eq!(make(&mut opened(4, 8), 0, 0), Empty);
}

fn a_take(keep: bool) -> Call {
    let (task, queue) = (0, 0);
    Call::Take { task, queue, keep }
}

#[test]
fn take() {
    tests_memory(&a_take(false));
    finding(Calls::take);
    let mut core = opened(2, 8);
    for value in 5..8 {
        core.push(0, 0, value);
    }
    // The segment stays, then it is freed.
    for (value, free) in [(5, vec![7, 6, 5]), (6, vec![7, 6, 5, 0])] {
        assert_eq!(core.take(0, 0), Moved(value));
        assert_eq!(free_segments(&core), free);
    }
    assert_eq!([core.take(0, 0), core.take(0, 0)], [Moved(7), Empty]);
}

/// The value stays queued: no word changes, with the last value of a segment too.
#[test]
fn take_and_keep() {
    tests_memory(&a_take(true));
    finding(Calls::peek);
    let mut core = opened(1, 8);
    core.push_run(0, 0, &[5, 6]);
    for value in [5, 6] {
        let before = core.model.clone();
        assert_eq!([core.peek(0, 0), core.peek(0, 0)], [Moved(value); 2]);
        assert!(core.model == before);
        assert_eq!(core.take(0, 0), Moved(value));
    }
    assert_eq!(core.peek(0, 0), Empty);
}

extern "C" {
    fn hq_take(words: *mut u32, len: usize, task: u32, queue: u32, keep: u32) -> u64;
}

/// The value is taken with 0, and kept with any other number.
#[test]
fn take_and_keep_by_number() {
    let mut core = opened(4, 8);
    core.push(0, 0, 5);
    for keep in [0, 1, 2, 256, 1 << 16, 1 << 31, u32::MAX] {
        let mut words = core.model.clone();
        let given = unsafe { hq_take(words.as_mut_ptr(), words.len(), 0, 0, keep) };
        assert_eq!(given, 5, "keep {keep}");
        assert_eq!(words == core.model, keep != 0, "keep {keep}");
    }
}

/// The tests of sync and finish, which both make; the late 2 is the top's.
fn ending(make: fn(&mut Pair, u32) -> Answer) {
    let mut core = spawned(&[2, 2]);
    assert_eq!(make(&mut core, 3), Refused(4));
    // For an older sibling and for a child.
    assert_eq!(make(&mut core, 2), Waits);
    assert_eq!(make(&mut core, 0), Waits);
    let late = hand::sync_to_itself(&[6]).0;
    assert_eq!(make(&mut on(&late), 0), Refused(2));
}

#[test]
fn sync() {
    tests_memory(&Call::Sync { task: 0 });
    ending(Calls::sync);
    let mut core = spawned(&[1]);
    core.finish(1);
    assert_eq!(view(&core, children_view(0, 0)), (NL, 0));
    assert_eq!(core.sync(0), Moved(0));
    assert_eq!(view(&core, children_view(0, 0)), E);
    assert_eq!(view(&core, user_view(0, 0)), (NL, 0));
}

#[test]
fn finish() {
    tests_memory(&Call::Finish { task: 0 });
    ending(Calls::finish);
    assert_eq!(on(&hand::finish_to_itself().0).finish(1), Refused(2));
    let mut core = opened(4, 8);
    assert_eq!(core.finish(0), Moved(0));
    assert_eq!(status(&core.model, 0), FINISHED);
}

/// A view with a non-local head goes to the older sibling's right view, or to
/// the parent's children view; the record is used next.
#[test]
fn finish_with_a_nonlocal_head() {
    let mut core = spawned(&[1, 1]);
    core.push(2, 0, 7);
    assert_eq!(core.finish(2), Moved(0));
    assert_eq!(view(&core, right_view(1, 0)), (4, 4));
    assert_eq!(core.spawn(0, 0), Moved(2));

    let mut core = spawned(&[1]);
    assert_eq!(core.finish(1), Moved(0));
    assert_eq!(view(&core, children_view(0, 0)), (NL, 0));
}

#[test]
fn finish_with_a_local_head() {
    let mut core = spawned(&[1, 1]);
    core.spawn(2, 1);
    core.spawn(2, 1);
    core.push(4, 0, 9);
    assert_eq!(view(&core, right_view(3, 0)), (4, NL));
    assert_eq!(core.finish(3), Moved(0));
    assert_eq!(view(&core, children_view(2, 0)), E);
    assert_eq!(view(&core, right_view(1, 0)), (4, NL));
}

/// The link of a finish frees an empty segment, and the queue view that named it
/// is re-pointed.
#[test]
fn finish_that_frees_a_segment() {
    let mut core = spawned(&[1, 1, 2]);
    core.push(2, 0, 7);
    assert_eq!(get(&core.model, queue_head(3, 0)), 0);
    assert_eq!(core.finish(1), Moved(0));
    assert_eq!(get(&core.model, queue_head(3, 0)), 4);
    assert_eq!(free_segments(&core), [7, 6, 5, 0]);
}

#[test]
fn finish_of_a_popper() {
    let mut core = spawned(&[2, 1, 2]);
    for (t, heir) in [(1, 3), (3, 0)] {
        assert_eq!(core.finish(t), Moved(0));
        assert_eq!(get(&core.model, queue_head(heir, 0)), 0);
    }
}

#[test]
fn left() {
    tests_memory(&Call::Left { queue: 0, index: 0 });
    let mut core = opened(2, 8);
    for value in 5..8 {
        core.push(0, 0, value);
    }
    assert_eq!(core.left(4, 0), Refused(5));
    assert_eq!(core.left(0, 0), Waits);
    core.finish(0);
    // Two values in the first segment, one in the next.
    for (index, due) in [(0, Moved(5)), (1, Moved(6)), (2, Moved(7)), (3, Refused(7))] {
        assert_eq!(core.left(0, index), due);
    }
}
