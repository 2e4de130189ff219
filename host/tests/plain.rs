//! The plain machine: every operation with its effect and answer, one by one.

use host::asm::assemble;
use host::job::Job;
use host::plain::Machine;
use host::plain::Reply::{self, *};

/// The job that the text writes, its segments of length 4.
fn job(text: &str) -> Job {
    let bytes = assemble(&format!("length 4\n{text}")).expect("assembles");
    Job::read(&bytes).expect("accepted")
}

/// What a job that ends answers, step by step, and what it leaves queued.
fn outcome(text: &str) -> (Vec<Reply>, [Vec<u32>; 4]) {
    let job = job(text);
    let mut machine = Machine::new(&job);
    let mut replies = Vec::new();
    while let Some(event) = machine.step() {
        replies.push(event.reply);
        assert_eq!(machine.steps(), replies.len() as u64);
    }
    assert_eq!((machine.depth(), machine.next()), (0, None));
    (replies, machine.queues().clone().map(Vec::from))
}

fn replies(text: &str) -> Vec<Reply> {
    outcome(text).0
}

#[test]
fn queues_are_first_in_first_out() {
    let text = "procedure top all
        push 2 7
        push 2 8
        push 3 9
        pop 2
        push-register 1 100
        return";
    let (replies, left) = outcome(text);
    assert_eq!(
        replies,
        [
            Pushed(7),
            Pushed(8),
            Pushed(9),
            Took(7),
            Pushed(107),
            Finished
        ]
    );
    assert_eq!(left, [vec![], vec![107], vec![8], vec![9]]);
}

#[test]
fn pop_on_an_empty_queue_keeps_the_register() {
    let text = "procedure top all
        add 5
        pop 0
        push-register 0 0
        pop 0
        pop 0
        return";
    assert_eq!(
        replies(text),
        [Moved, Empty, Pushed(5), Took(5), Empty, Finished]
    );
}

#[test]
fn goes() {
    let text = "procedure top all
        go-if-empty 0 empty
        return
    empty:
        go-if-zero zero
        return
    zero:
        push 0 3
        go-if-empty 0 top
        pop 0
        go-if-zero top
        go end
    top:
        push 0 99
    end:
        return";
    let (replies, left) = outcome(text);
    assert_eq!(
        replies,
        [
            Empty,
            Moved,
            Pushed(3),
            Not,
            Took(3),
            Moved,
            Moved,
            Finished
        ]
    );
    assert_eq!(left, [const { Vec::new() }; 4]);
}

/// Operation 10 takes, or goes with the register as it is. A value of 0 is one.
#[test]
fn take_or_go() {
    let text = "procedure top all
        push 0 3
        push 0 0
        add 5
    next:
        take-or-go 0 end
        push-register 1 0
        go next
    end:
        take-or-go 2 on
        return
    on:
        push-register 1 10
        return";
    let (replies, left) = outcome(text);
    let took = |value| [Took(value), Pushed(value), Moved];
    let due = [
        &[Pushed(3), Pushed(0), Moved][..],
        &took(3),
        &took(0),
        &[Empty, Empty, Pushed(10), Finished],
    ];
    assert_eq!(replies, due.concat());
    assert_eq!(left, [vec![], vec![3, 0, 10], vec![], vec![]]);
}

#[test]
fn sums_drop_what_exceeds_32_bits() {
    let text = "procedure top all
        add 4294967295
        push-register 0 0
        push-register 0 1
        spawn child 3
        add 1
        push-register 0 0
        return
    procedure child push 0
        push-register 0 0
        return";
    let (replies, left) = outcome(text);
    assert_eq!(left[0], [4_294_967_295, 0, 2, 0]);
    assert_eq!(replies[3], Spawned(1));
}

/// The child's register is the spawner's plus the operand; the spawner keeps
/// its own.
#[test]
fn registers_of_children() {
    let text = "procedure top all
        add 3
        spawn child 4
        push-register 0 0
        return
    procedure child push 0
        push-register 0 0
        add 50
        return";
    assert_eq!(outcome(text).1[0], [7, 3]);
}

/// A spawned task runs wholly before its spawner goes on; paths and numbers of
/// tasks, and the queue of each step.
#[test]
fn tasks_and_paths() {
    let text = "procedure top all
        spawn middle 0
        spawn leaf 0
        sync
        return
    procedure middle push 1
        spawn leaf 0
        spawn leaf 0
        return
    procedure leaf push 1
        push 1 8
        return";
    let job = job(text);
    let mut machine = Machine::new(&job);
    let mut seen = Vec::new();
    while let Some(event) = machine.step() {
        seen.push((
            event.path.to_vec(),
            event.task,
            event.operation,
            event.queue,
        ));
    }
    let expected = [
        (vec![], 0, 8, None),
        (vec![0], 1, 8, None),
        (vec![0, 0], 2, 1, Some(1)),
        (vec![0, 0], 2, 0, None),
        (vec![0], 1, 8, None),
        (vec![0, 1], 3, 1, Some(1)),
        (vec![0, 1], 3, 0, None),
        (vec![0], 1, 0, None),
        (vec![], 0, 8, None),
        (vec![1], 4, 1, Some(1)),
        (vec![1], 4, 0, None),
        (vec![], 0, 9, None),
        (vec![], 0, 0, None),
    ];
    assert_eq!(seen, expected);
}

/// The machine has no bounds of its own.
#[test]
fn no_bounds() {
    let text = "procedure top all
    again:
        push 0 1
        spawn top 0
        go again";
    let job = job(text);
    let mut machine = Machine::new(&job);
    for _ in 0..10_000 {
        assert!(machine.step().is_some());
    }
    assert_eq!((machine.steps(), machine.depth()), (10_000, 5_001));
    assert_eq!(machine.queues()[0].len(), 5_000);
}
