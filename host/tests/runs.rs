//! Pushes of runs of values: which are stored, which are refused, and that a run
//! is its single pushes one after another.

use host::answer::Answer;
use host::call::Call;
use host::hand;
use host::layout::*;
use host::memory::*;
use host::random::Random;
use host::sample::{likely_call, reached};

/// The values that `task` can take from queue 0.
fn taken(core: &mut Core, task: u32) -> Vec<u32> {
    let values = std::iter::from_fn(|| match core.take(task, 0) {
        Moved(value) => Some(value),
        _ => None,
    });
    values.collect()
}

/// The top's user view of queue 0 is empty, and a link behind its children view
/// frees segment 0.
fn after_an_idle_child(length: u32, segments: u32) -> Core {
    let mut core = Core::open(length, segments);
    core.spawn(0, 1);
    core.finish(1);
    core
}

#[test]
fn freed_segment_is_taken_next() {
    let mut core = after_an_idle_child(1, 5);
    assert_eq!(core.push_run(0, 0, &[5, 6]), Moved(6));
    assert_eq!(core.free_segments(), []);
    assert_eq!((core.queue_head(0, 0), next(&core.0, 4)), (4, 0));
    assert_eq!(core.views(0, 0)[1], (NL, 0));
    assert_eq!(core.get(value_place(4, 1, 0)), 5);
    assert_eq!(core.get(value_place(0, 1, 0)), 6);
    assert_eq!(core.broken(), None);
    assert_eq!(taken(&mut core, 0), [5, 6]);
}

/// It counts once, and not for the value whose link frees it.
#[test]
fn freed_segment_is_not_there_before() {
    assert_eq!(after_an_idle_child(1, 4).push_run(0, 0, &[5]), Refused(9));
    let mut core = after_an_idle_child(1, 5);
    assert_eq!(core.push_run(0, 0, &[5, 6, 7]), Refused(9));
    let mut core = after_an_idle_child(3, 6);
    let run: Vec<u32> = (0..10).collect();
    assert_eq!(core.push_run(0, 0, &run), Refused(9));
    assert_eq!(core.push_run(0, 0, &run[..9]), Moved(8));
    assert_eq!(taken(&mut core, 0), run[..9]);
}

/// Where the segment linked behind has a value nothing is freed.
#[test]
fn nothing_freed_behind_values() {
    let mut core = Core::open(1, 5);
    core.spawn(0, 1);
    core.push(1, 0, 4);
    core.finish(1);
    assert_eq!(core.push_run(0, 0, &[5, 6]), Refused(9));
    assert_eq!(core.push_run(0, 0, &[5]), Moved(5));
}

#[test]
fn refused_run_stores_nothing() {
    let mut core = Core::open(2, 4);
    assert_eq!(core.push_run(0, 0, &[1, 2, 3]), Refused(9));
    assert_eq!(core.take(0, 0), Empty);
    let mut core = Core::open(4, 4);
    assert_eq!(core.push_run(0, 0, &[1, 2, 3, 4, 5]), Refused(9));
    assert_eq!(core.push_run(0, 0, &[1, 2, 3, 4]), Moved(4));
    assert_eq!(core.push_run(0, 0, &[5]), Refused(9));
}

/// The room of the tail segment counts with the free ones.
#[test]
fn room_and_free_segments() {
    for (length, number, due) in [(3, 7, Moved(7)), (3, 8, Refused(9)), (2, 5, Refused(9))] {
        let mut core = Core::open(length, 6);
        core.push_run(0, 0, &[90, 91]);
        let run: Vec<u32> = (1..=number).collect();
        assert_eq!(core.push_run(0, 0, &run), due);
    }
}

/// The user view is empty and no segment is free.
#[test]
fn none_needs_no_segment() {
    let mut core = Core::open(1, 4);
    core.spawn(0, 1);
    let before = core.clone();
    assert_eq!(core.push_run(0, 0, &[]), Moved(0));
    assert!(core.0 == before.0);
    assert_eq!(core.push_run(0, 0, &[1]), Refused(9));
}

/// A run of none is tested as any other.
#[test]
fn none_is_tested() {
    let mut core = Core::open(4, 8);
    core.spawn(0, 2);
    core.spawn(0, 3);
    for run in [&[][..], &[5], &[5, 6]] {
        assert_eq!(core.push_run(3, 4, run), Refused(4));
        assert_eq!(core.push_run(2, 4, run), Refused(5));
        assert_eq!(core.push_run(1, 0, run), Refused(6));
        assert_eq!(core.push_run(2, 0, run), Waits);
        assert_eq!(Core(vec![0; WORDS]).push_run(0, 0, run), Refused(2));
        assert_eq!(Core(vec![0; 9]).push_run(0, 0, run), Refused(1));
    }
}

/// The wait goes before 9, and 9 by the whole run before the late 2 of its first
/// link; one segment, of four places, is free.
#[test]
fn late_refusal_behind_9() {
    let mut core = Core::open(1, 4);
    core.spawn(0, 2);
    core.spawn(0, 3);
    assert_eq!(core.push_run(2, 0, &[5, 6]), Waits);
    for (number, due) in [
        (0, Moved(0)),
        (1, Refused(2)),
        (4, Refused(2)),
        (5, Refused(9)),
    ] {
        let mut core = hand::nonlocal_tail(6);
        assert_eq!(core.push_run(0, 0, &vec![5; number]), due, "{number}");
    }
}

/// A user view that ends non-locally gets 2, whatever is free.
#[test]
fn nonlocal_user_tail_gets_2() {
    for (segments, number) in [(4, 1), (8, 1), (8, 16), (8, 17), (4, 5_000)] {
        let mut core = hand::nonlocal_user_tail(segments);
        assert_eq!(core.push_run(0, 0, &vec![5; number]), Refused(2));
        assert_eq!(core.push_run(0, 0, &[]), Moved(0));
    }
}

/// The first link leaves memory that breaks a rule, and the run goes on.
#[test]
fn run_goes_on_behind_its_first_link() {
    let mut core = hand::only_right();
    let run: Vec<u32> = (1..=10).collect();
    assert_eq!(core.push_run(0, 0, &run), Moved(10));
    assert_eq!(core.views(0, 0), [(4, NL), (NL, 6), (NL, 0)]);
    assert_eq!(core.broken(), Some("order of the views"));
    assert_eq!([4, 5, 6].map(|s| count(&core.0, s)), [4, 4, 2]);
    assert_eq!(core.push_run(0, 0, &[]), Refused(2));
}

/// Around the end of the ring, then into new segments.
#[test]
fn run_in_a_ring() {
    let mut core = Core::open(4, 8);
    core.push_run(0, 0, &[1, 2, 3]);
    core.take(0, 0);
    core.take(0, 0);
    assert_eq!(core.push_run(0, 0, &[4, 5, 6, 7, 8, 9, 10, 11]), Moved(11));
    assert_eq!(
        core.0[value_place(0, 4, 0)..value_place(1, 4, 0)],
        [5, 6, 3, 4]
    );
    assert_eq!(
        core.0[value_place(4, 4, 0)..value_place(5, 4, 0)],
        [7, 8, 9, 10]
    );
    assert_eq!(core.views(0, 0)[1], (NL, 5));
    assert_eq!(taken(&mut core, 0), [3, 4, 5, 6, 7, 8, 9, 10, 11]);
}

/// The longest run of all: 125 segments of 64 values.
#[test]
fn longest_run() {
    let run: Vec<u32> = (0..70_000).collect();
    let mut core = Core::open(64, 128);
    for number in [8_001, 8_064, 65_536, 70_000] {
        assert_eq!(core.push_run(0, 0, &run[..number]), Refused(9));
    }
    assert_eq!(core.push_run(0, 0, &run[..8_000]), Moved(7_999));
    core.finish(0);
    for index in [0, 63, 64, 7_999] {
        assert_eq!(core.left(0, index), Moved(index));
    }
    assert_eq!(core.left(0, 8_000), Refused(7));
}

/// What single pushes of the run lead to: the last answer, or the first of one
/// that does not move.
fn one_by_one(m: &mut [u32], task: u32, queue: u32, values: &[u32]) -> Answer {
    let mut last = Moved(0);
    for value in values {
        last = Call::push(task, queue, &[*value]).make(m);
        if !last.moved() {
            break;
        }
    }
    last
}

/// On memory that calls have made, a run has the answer and the words of its
/// single pushes, or is refused and changes nothing.
#[test]
fn run_is_its_single_pushes() {
    let mut r = Random::new(8);
    let (mut moved, mut freed, mut part_way) = (0, 0, 0);
    for _ in 0..12_000 {
        let before = reached(&mut r);
        let call = likely_call(&mut r, &before, 2);
        let Some((task, queue, values)) = call.as_push() else {
            panic!("{call} is no push");
        };
        let (mut whole, mut single) = (before.clone(), before.clone());
        let due = one_by_one(&mut single, task, queue, values);
        let answer = call.make(&mut whole);
        if values.is_empty() {
            assert!(matches!(answer, Moved(0) | Waits | Refused(4..=6)));
        } else {
            assert_eq!(answer, due, "{call}");
        }
        if answer.moved() {
            assert!(whole == single, "{call}: other words");
            moved += u32::from(values.len() > 1);
            let needed = values.len() as u32 > get(&before, FREE_SEGMENTS) * length(&before);
            let user = host::views::read(&before, user_view(task, queue));
            freed += u32::from(needed && user.is_empty());
        } else {
            assert!(whole == before, "{call}: {answer:?}, and words changed");
            part_way += u32::from(single != before);
        }
    }
    println!("{moved} runs moved, {freed} into a freed segment, {part_way} run out part way");
    assert!(moved > 2_000 && freed > 10 && part_way > 500);
}
