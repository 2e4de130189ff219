//! The serial runner: its text, its three bounds, and which goes first.

use host::asm::assemble;
use host::job::Job;
use host::serial::{run, text, End, Run};

fn bytes(text: &str) -> Vec<u8> {
    assemble(&format!("length 4\n{text}")).expect("assembles")
}

fn run_of(text: &str) -> Run {
    run(&Job::read(&bytes(text)).expect("accepted"))
}

/// Why the run stops, and after how many steps.
fn end_of(text: &str) -> (End, usize) {
    let run = run_of(text);
    (run.end, run.events.len())
}

#[test]
fn refused_jobs() {
    assert_eq!(text(&[]), "job refused 10\n");
    assert_eq!(text(&[0; 4]), "job refused 10\n");
    let mut job = bytes("procedure top all\n return");
    job[8] = 3;
    assert_eq!(text(&job), "job refused 11\n");
    job[8] = 255;
    job[10] = 11;
    assert_eq!(text(&job), "job refused 12\n");
}

#[test]
fn every_answer_in_the_text() {
    let job = bytes(
        "procedure top all
            push 3 4294967295
            push 1 0
            go-if-empty 1 end
            go-if-empty 2 on
        on: spawn child 1
            sync
        end: return
        procedure child pop 1 pop 2 push 0
            pop 1
            pop 2
            push 0 6
            return",
    );
    let expected = "1 0 pushed 4294967295\n2 0 pushed 0\n3 0 not -\n4 0 empty -\n5 0 spawned 1\n\
        6 1 took 0\n7 1 empty -\n8 1 pushed 6\n9 1 finished -\n10 0 moved -\n11 0 finished -\n\
        left 0 6\nleft 3 4294967295\n";
    assert_eq!(text(&job), expected);
}

/// A count down from N, then the lines given: 3N + 2 steps before them.
fn counted(n: u32, then: &str) -> String {
    format!(
        "procedure top all
            add {n}
        loop:
            go-if-zero done
            add -1
            go loop
        done:
            {then}"
    )
}

#[test]
fn steps() {
    // The last return is step 65,535.
    assert_eq!(end_of(&counted(21_844, "return")), (End::Ended, 65_535));
    let one_more = counted(21_844, "sync\nreturn");
    assert_eq!(end_of(&one_more), (End::Spent, 65_535));
    assert!(text(&bytes(&one_more)).ends_with("\n65535 0 moved -\nspent\n"));
    let endless = "procedure top all\nhere: go here";
    assert_eq!(end_of(endless), (End::Spent, 65_535));
    // A pop on an empty queue is a step, and so is a take-or-go.
    let pops = "procedure top all\nhere: pop 0\n go here";
    assert_eq!(end_of(pops), (End::Spent, 65_535));
    let takes = "procedure top all\nhere: take-or-go 0 here\nreturn";
    assert_eq!(end_of(takes), (End::Spent, 65_535));
}

/// A chain of tasks, each the child of the one before it; the top counts as 1.
fn chain(depth: u32, then: &str) -> String {
    format!(
        "procedure top all
            add {}
            spawn link 0
            return
        procedure link push 0
            go-if-zero end
            add -1
            spawn link 0
            return
        end: {then}",
        depth - 2
    )
}

#[test]
fn depth() {
    assert_eq!(end_of(&chain(128, "return")).0, End::Ended);
    let (end, steps) = end_of(&chain(129, "return"));
    assert_eq!(end, End::Refused(8));
    // Two steps of the top, three of each of 126 links, two of the last.
    assert_eq!(steps, 2 + 3 * 126 + 2);
    let printed = text(&bytes(&chain(129, "return")));
    assert!(printed.ends_with("382 127 moved -\nrefused 8\n"));
    // Depth is not the number of tasks: 1,000 children one after another.
    let children = "procedure top all
            add 1000
        loop: go-if-zero end
            spawn child 0
            add -1
            go loop
        end: return
        procedure child
            return";
    assert_eq!(end_of(children).0, End::Ended);
}

/// A loop that pushes to queue 2 for a count, then the lines given.
fn pushes(count: u32, then: &str) -> String {
    format!(
        "procedure top all
            add {count}
        loop:
            go-if-zero done
            push-register 2 0
            add -1
            go loop
        done:
            {then}"
    )
}

#[test]
fn values() {
    let full = run_of(&pushes(4_096, "return"));
    assert_eq!(full.end, End::Ended);
    assert_eq!(full.queues[2].len(), 4_096);
    for push in ["push 2 1", "push-register 2 1"] {
        let past = run_of(&pushes(4_096, &format!("{push}\nreturn")));
        assert_eq!(past.end, End::Refused(9));
        assert_eq!(past.queues[2].len(), 4_096);
        assert_eq!(past.events.len(), 4 * 4_096 + 2);
    }
    assert!(text(&bytes(&pushes(4_097, "return"))).ends_with("\nrefused 9\n"));
    // The bound is for each queue, and a pop makes room.
    assert_eq!(end_of(&pushes(4_096, "push 1 1\nreturn")).0, End::Ended);
    let room = pushes(4_096, "pop 2\npush 2 1\nreturn");
    assert_eq!(end_of(&room).0, End::Ended);
}

/// The test and the pop of operation 10 are one step, whatever they find: two
/// steps a value, one that finds the queue empty, and the return.
#[test]
fn operation_10_is_one_step() {
    let drain = "next: take-or-go 2 end\ngo next\nend: return";
    for number in [0, 1, 4_096] {
        let steps = 4 * number + 2 + 2 * number + 2;
        assert_eq!(end_of(&pushes(number as u32, drain)), (End::Ended, steps));
    }
}

/// With 4,096 values queued a push is step 65,536 or step 65,535. "Spent" is
/// tried first, but not before the steps are used up.
#[test]
fn spent_goes_before_9() {
    let waste = |syncs: usize| {
        // 16,386 steps to fill the queue; the register is 0 then.
        let rest = "add 16381\nwaste: go-if-zero full\nadd -1\ngo waste\nfull:";
        pushes(
            4_096,
            &format!("{rest}\n{}push 2 1\nreturn", "sync\n".repeat(syncs)),
        )
    };
    let made = 16_386 + 1 + 3 * 16_381 + 1;
    assert_eq!(made, 65_531);
    assert_eq!(end_of(&waste(3)), (End::Refused(9), 65_534));
    assert_eq!(end_of(&waste(4)), (End::Spent, 65_535));
}

/// The same with a spawn at depth 128.
#[test]
fn spent_goes_before_8() {
    let waste = |syncs: usize| {
        let rest = "add 21716\nwaste: go-if-zero deep\nadd -1\ngo waste\ndeep:";
        chain(
            128,
            &format!("{rest}\n{}spawn link 0\nreturn", "sync\n".repeat(syncs)),
        )
    };
    // 381 steps down to the last link and its first one.
    let made = 381 + 1 + 3 * 21_716 + 1;
    assert_eq!(made, 65_531);
    assert_eq!(end_of(&waste(3)), (End::Refused(8), 65_534));
    assert_eq!(end_of(&waste(4)), (End::Spent, 65_535));
}
