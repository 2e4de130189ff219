//! Document 02's take: what it answers with the value kept and taken, that a take
//! of an empty queue is a step, and operation 10 of a job, in runs with overlap
//! and without.

use host::asm::assemble;
use host::call::Call;
use host::check::Pair;
use host::layout::WORDS;
use host::memory::*;
use host::overlap_text;
use host::serial;

/// Keeping tells the value, any number of times, and takes nothing.
#[test]
fn kept_values_stay_queued() {
    let mut core = Core::open(1, 8);
    core.push_run(0, 2, &[5, 6]);
    for value in [5, 6] {
        assert_eq!([core.peek(0, 2), core.peek(0, 2)], [Moved(value); 2]);
        assert_eq!(core.take(0, 2), Moved(value));
    }
    assert_eq!([core.peek(0, 2), core.take(0, 2)], [Empty; 2]);
}

/// What is kept is left.
#[test]
fn kept_values_are_left() {
    let mut core = Core::open(4, 8);
    core.push(0, 0, 5);
    core.peek(0, 0);
    core.finish(0);
    assert_eq!(core.left(0, 0), Moved(5));
    assert_eq!(core.left(0, 1), Refused(7));
}

/// A value that one task keeps is there for the next.
#[test]
fn kept_by_a_child() {
    let mut core = Core::open(4, 8);
    core.push(0, 0, 5);
    core.spawn(0, 2);
    assert_eq!([core.peek(0, 0), core.take(0, 0)], [Waits; 2]);
    assert_eq!(core.peek(1, 0), Moved(5));
    core.finish(1);
    assert_eq!([core.peek(0, 0), core.take(0, 0)], [Moved(5); 2]);
}

/// With keep or without: for an older sibling, for a pusher, for a value behind
/// a pusher. A younger pusher does not count.
#[test]
fn both_wait_alike() {
    let mut core = Core::open(4, 8);
    for rights in [1, 2, 2, 1] {
        core.spawn(0, rights);
    }
    core.push(4, 0, 7);
    assert_eq!([core.peek(3, 0), core.take(3, 0)], [Waits; 2]);
    assert_eq!([core.peek(2, 0), core.take(2, 0)], [Waits; 2]);
    core.push(1, 0, 5);
    assert_eq!([core.peek(2, 0), core.take(2, 0)], [Moved(5); 2]);
    assert_eq!([core.peek(2, 0), core.take(2, 0)], [Waits; 2]);
    core.finish(1);
    assert_eq!([core.peek(2, 0), core.take(2, 0)], [Empty; 2]);
    core.finish(2);
    assert_eq!([core.peek(3, 0), core.take(3, 0)], [Empty; 2]);
}

/// Both are steps, and change nothing that a later call is answered: beside
/// program order, with every comparison.
#[test]
fn empty_and_kept_takes_are_steps() {
    let mut pair = Pair::new(vec![3; WORDS], 1);
    let mut make = |call: Call| pair.make(&call).unwrap_or_else(|what| panic!("{what}"));
    let take = |keep| Call::Take {
        task: 0,
        queue: 0,
        keep,
    };
    make(Call::Open {
        length: 1,
        segments: 8,
    });
    for keep in [true, false] {
        assert_eq!(make(take(keep)), Empty);
    }
    make(Call::push(0, 0, &[5, 6]));
    for (keep, value) in [(true, 5), (false, 5), (true, 6), (false, 6)] {
        assert_eq!(make(take(keep)), Moved(value));
    }
    assert_eq!(make(take(false)), Empty);
    // Seven takes, two values and the top's spot.
    assert_eq!(pair.order.size(), 10);
}

/// Operation 10 takes 9; then it finds nothing, and goes past the addition with
/// the register as it was. Each is one step.
#[test]
fn operation_10() {
    let job = assemble(
        "length 4
         procedure top all
         push 0 9
         take-or-go 0 four
         push-register 1 0
         take-or-go 0 five
         four: add 1
         five: push-register 1 0
         return",
    )
    .expect("a job");
    let due = "1 0 pushed 9\n2 0 took 9\n3 0 pushed 9\n4 0 empty -\n5 0 pushed 9\n6 0 finished -\n\
               left 1 9\nleft 1 9\n";
    assert_eq!(serial::text(&job), due);
    assert_eq!(overlap_text::text(&job, &[0; 6]), due);
}
