//! The table of refusals: each number from a sequence of calls, and which one
//! wins where several apply.

use host::call::Call;
use host::layout::WORDS;
use host::memory::*;

fn take(keep: bool) -> Call {
    let (task, queue) = (0, 0);
    Call::Take { task, queue, keep }
}

/// One call of each kind, of push also a run of none, of take also a kept one.
fn all_calls() -> [Call; 9] {
    [
        Call::Open {
            length: 4,
            segments: 8,
        },
        Call::Spawn { task: 0, rights: 1 },
        Call::push(0, 0, &[5, 6]),
        Call::push(0, 0, &[]),
        take(false),
        take(true),
        Call::Sync { task: 0 },
        Call::Finish { task: 0 },
        Call::Left { queue: 0, index: 0 },
    ]
}

#[test]
fn other_lengths_get_1() {
    for length in [0, 1, 3, 447, 7_616, WORDS - 1, WORDS + 1, WORDS + 384] {
        let mut words = Core::open(4, 8).0;
        words.resize(length, 9);
        for call in all_calls() {
            let before = words.clone();
            assert_eq!(call.make(&mut words), Refused(1), "{call}");
            assert!(words == before);
        }
    }
}

#[test]
fn zeros_get_2() {
    for call in &all_calls()[1..] {
        let mut words = vec![0; WORDS];
        assert_eq!(call.make(&mut words), Refused(2), "{call}");
        assert!(words == [0; WORDS]);
    }
}

#[test]
fn opening_numbers_out_of_range_get_3() {
    let most = u32::MAX;
    let bad = [
        (0, 8),
        (65, 8),
        (4, 3),
        (4, 257),
        (64, 129),
        (33, 249),
        (most, most),
        (65_536, 65_536),
        (1, 0),
        (0, 0),
        (2, 1 << 31),
        (1 << 31, 4),
    ];
    for (length, segments) in bad {
        let mut core = Core::open(4, 8);
        assert_eq!(core.make(&Call::Open { length, segments }), Refused(3));
    }
    for (length, segments) in [(1, 4), (1, 256), (32, 256), (33, 248), (64, 4), (64, 128)] {
        Core::open(length, segments);
    }
}

/// 1 goes before 3.
#[test]
fn opening_a_wrong_length_with_wrong_numbers() {
    assert_eq!(host::calls::open(&mut [0; 9], 0, 0), Refused(1));
}

#[test]
fn no_such_task_gets_4() {
    for task in [1, 127, 128, 129, u32::MAX] {
        let mut core = Core::open(4, 8);
        assert_eq!(core.spawn(task, 256), Refused(4));
        assert_eq!(core.push(task, 4, 5), Refused(4));
        assert_eq!(core.take(task, 4), Refused(4));
        assert_eq!(core.peek(task, 4), Refused(4));
        assert_eq!(core.sync(task), Refused(4));
        assert_eq!(core.finish(task), Refused(4));
    }
}

#[test]
fn finished_tasks_get_4() {
    let mut core = Core::open(4, 8);
    core.spawn(0, 3);
    core.finish(1);
    assert_eq!(core.push(1, 0, 5), Refused(4));
    core.finish(0);
    assert_eq!(core.push(0, 0, 5), Refused(4));
    assert_eq!(core.spawn(0, 0), Refused(4));
    assert_eq!(core.sync(0), Refused(4));
    assert_eq!(core.finish(0), Refused(4));
}

/// 2 goes before 4.
#[test]
fn bad_memory_and_no_such_task() {
    let mut core = Core(vec![0; WORDS]);
    assert_eq!(core.push(128, 4, 5), Refused(2));
    assert_eq!(core.left(4, 0), Refused(2));
}

/// 5 goes before 6 and before the waits.
#[test]
fn no_such_queue_gets_5() {
    for queue in [4, 5, 16, 31, 32, u32::MAX] {
        let mut core = Core::open(4, 8);
        core.spawn(0, 2);
        core.spawn(0, 2);
        core.spawn(0, 0);
        for task in [0, 2, 3] {
            assert_eq!(core.push(task, queue, 5), Refused(5));
            assert_eq!(core.take(task, queue), Refused(5));
            assert_eq!(core.peek(task, queue), Refused(5));
        }
        assert_eq!(core.left(queue, 0), Refused(5));
    }
}

#[test]
fn no_right_gets_6() {
    let mut core = Core::open(4, 8);
    core.spawn(0, 2);
    core.spawn(0, 1);
    assert_eq!(core.push(1, 0, 5), Refused(6));
    assert_eq!(core.take(2, 0), Refused(6));
    assert_eq!(core.peek(2, 0), Refused(6));
    assert_eq!(core.push(2, 1, 5), Refused(6));
    assert_eq!(core.spawn(2, 3), Refused(6));
    assert_eq!(core.spawn(0, 256), Refused(6));
    assert_eq!(core.spawn(0, u32::MAX), Refused(6));
}

/// 6 goes before the waits: 2 waits for 1, which shares the pop right on 1.
#[test]
fn no_right_of_a_waiting_task() {
    let mut core = Core::open(4, 8);
    core.spawn(0, 8);
    core.spawn(0, 8);
    assert_eq!(core.push(2, 0, 5), Refused(6));
    assert_eq!(core.spawn(2, 1), Refused(6));
    assert_eq!(core.spawn(2, 8), Waits);
    assert_eq!(core.sync(2), Waits);
    assert_eq!(core.finish(2), Waits);
    assert_eq!(core.take(2, 1), Waits);
    assert_eq!(core.peek(2, 1), Waits);
}

#[test]
fn left_past_the_end_gets_7() {
    let mut core = Core::open(4, 8);
    assert_eq!(core.left(0, u32::MAX), Waits);
    core.push(0, 3, 8);
    core.finish(0);
    assert_eq!(core.left(0, 0), Refused(7));
    assert_eq!(core.left(0, u32::MAX), Refused(7));
    assert_eq!(core.left(3, 0), Moved(8));
    assert_eq!(core.left(3, 1), Refused(7));
}

/// An empty queue is answered "empty", and a value of 0 is a value.
#[test]
fn empty_queue_gets_no_refusal() {
    let mut core = Core::open(4, 8);
    assert_eq!([core.peek(0, 0), core.take(0, 0)], [Empty; 2]);
    core.push(0, 0, 0);
    assert_eq!([core.peek(0, 0), core.take(0, 0)], [Moved(0); 2]);
    assert_eq!([core.peek(0, 0), core.take(0, 0)], [Empty; 2]);
}

/// An older pusher is unfinished: it may still push.
#[test]
fn empty_queue_behind_a_pusher_waits() {
    let mut core = Core::open(4, 8);
    core.spawn(0, 1);
    assert_eq!(core.take(0, 0), Waits);
    assert_eq!(core.take(0, 1), Empty);
}

#[test]
fn no_record_gets_8() {
    let mut core = Core::open(4, 8);
    for number in 1..=127 {
        assert_eq!(core.spawn(number - 1, 255), Moved(number));
    }
    assert_eq!(core.spawn(127, 0), Refused(8));
    assert_eq!(core.spawn(127, 256), Refused(6));
    assert_eq!(core.finish(127), Moved(0));
    assert_eq!(core.spawn(126, 0), Moved(127));
}

/// A waiting task waits, though no record is free.
#[test]
fn waits_before_8() {
    let mut core = Core::open(4, 8);
    for _ in 0..127 {
        core.spawn(0, 2);
    }
    assert_eq!(core.spawn(127, 0), Waits);
    assert_eq!(core.spawn(1, 0), Refused(8));
}

#[test]
fn no_segment_gets_9() {
    let mut core = Core::open(2, 5);
    for value in 0..4 {
        assert_eq!(core.push(0, 0, value), Moved(value));
    }
    assert_eq!(core.push(0, 0, 4), Refused(9));
    assert_eq!(core.push(0, 1, 5), Moved(5));
    for value in 0..2 {
        assert_eq!(core.take(0, 0), Moved(value));
    }
    assert_eq!(core.push(0, 0, 4), Moved(4));
}

/// A waiting task waits, though no segment is free.
#[test]
fn waits_before_9() {
    let mut core = Core::open(1, 4);
    core.spawn(0, 2);
    core.spawn(0, 3);
    assert_eq!(core.push(2, 0, 5), Waits);
    core.finish(1);
    assert_eq!(core.push(2, 0, 5), Refused(9));
}

/// The empty segment that the push would free does not help it.
#[test]
fn segment_freed_by_the_push_comes_too_late() {
    let mut core = Core::open(1, 4);
    core.spawn(0, 1);
    core.finish(1);
    assert_eq!(core.push(0, 0, 5), Refused(9));
    let mut roomy = Core::open(1, 5);
    roomy.spawn(0, 1);
    roomy.finish(1);
    assert_eq!(roomy.push(0, 0, 5), Moved(5));
    assert_eq!(roomy.free_segments(), [0]);
}

#[test]
fn left_tests_the_queue_before_it_waits() {
    let mut core = Core::open(4, 8);
    assert_eq!(core.left(4, 0), Refused(5));
    assert_eq!(core.left(0, 0), Waits);
}

#[test]
fn numbers_of_the_answers() {
    let cases = [(Moved(9), 0, 9), (Empty, 33, 0), (Waits, 32, 0)];
    for (answer, number, value) in cases {
        assert_eq!((answer.number(), answer.value()), (number, value));
    }
    for k in 1..=9 {
        assert_eq!((Refused(k).number(), Refused(k).value()), (k, 0));
    }
}
