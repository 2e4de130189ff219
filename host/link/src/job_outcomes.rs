//! Every outcome of the job test, the serial runner, opening a job, a step and
//! the ready map that docs/OUTCOMES.md lists, reached by a small job on the
//! linked library and on the model, with the answer named here.

use crate::linked_jobs::{ANSWERS, WORKING};
use crate::runner_pair::RunnerPair;
use crate::serial_pair::{test, SerialPair};
use host::asm::assemble;
use host::hand;
use host::layout::*;
use host::plain::Reply::*;
use host::runner::Stepped::{self, Moved as Did, Refused, Waits};
use host::runner::{RECORD, RUNNER};
use host::serial::End;

const DONE: Stepped = Did(Moved);
const IDLE: &str = "procedure top all\nreturn";
const ENDLESS_PUSH: &str = "procedure top all\nagain: push 0 1\ngo again";
const ENDLESS_SPAWN: &str = "procedure top all\nspawn top 0\nreturn";
/// A refused map, and one on which nobody is ready.
const NOBODY: [u32; 6] = [0, 0, 0, 0, 0, NONE];

/// The job of this text, of segments that hold one value.
fn job(text: &str) -> Vec<u8> {
    assemble(&format!("length 1\n{text}")).unwrap_or_else(|fault| panic!("{fault}"))
}

/// Bytes that are no job, with the number of the refusal.
fn refused_jobs() -> [(Vec<u8>, u32); 3] {
    let with = |at: usize, byte| {
        let mut job = job(IDLE);
        job[at] = byte;
        job
    };
    // Three bytes; rights of the top; an operation.
    [(vec![0; 3], 10), (with(8, 3), 11), (with(10, 11), 12)]
}

fn lent(job: Vec<u8>, core: usize, runner: usize) -> RunnerPair {
    RunnerPair::new(job, &vec![7; core], &vec![7; runner])
}

fn opened(text: &str) -> RunnerPair {
    let mut pair = lent(job(text), WORDS, RUNNER);
    assert_eq!(pair.open(), Ok(DONE));
    pair
}

fn map(pair: &mut RunnerPair) -> (Stepped, [u32; 6]) {
    let answer = pair.ready().expect("the maps agree");
    (answer, pair.map())
}

/// The answer of a list of steps, and the answers of the steps.
fn list(pair: &mut RunnerPair, tasks: &[u32], places: usize) -> (Stepped, Vec<Stepped>) {
    pair.run(tasks, places).expect("the lists agree")
}

/// The step gets this answer, and the map says before whether it moves.
fn step(pair: &mut RunnerPair, t: u32, due: Stepped) {
    let (answer, words) = map(pair);
    assert_eq!(answer, DONE);
    let bit = words[(t / 32) as usize] >> (t % 32) & 1;
    assert_eq!(bit == 1, due.moved(), "the bit of task {t}");
    assert_eq!(pair.step(t), Ok(due), "task {t}");
}

fn steps(pair: &mut RunnerPair, due: &[(u32, Stepped)]) {
    for (t, answer) in due {
        step(pair, *t, *answer);
    }
}

#[test]
fn job_test() {
    assert_eq!(test(&job(IDLE)), Ok(0));
    for (job, number) in refused_jobs() {
        assert_eq!(test(&job), Ok(number));
    }
}

#[test]
fn serial_runner_refuses() {
    let refused = |job: &[u8], working: usize, answers: usize| {
        let mut pair = SerialPair::new(&vec![7; working], &vec![7; answers]);
        pair.run(job).expect("they agree").err()
    };
    for (working, answers) in [
        (WORKING - 1, ANSWERS),
        (WORKING + 1, ANSWERS),
        (WORKING, ANSWERS - 1),
        (WORKING, ANSWERS + 1),
    ] {
        assert_eq!(refused(&job(IDLE), working, answers), Some(1));
    }
    for (job, number) in refused_jobs() {
        assert_eq!(refused(&job, WORKING, ANSWERS), Some(number));
    }
}

#[test]
fn serial_runner_runs() {
    let every_answer = "procedure top all
        push 1 5
        go-if-empty 1 end
        go-if-empty 2 on
    on: spawn child 1
        sync
    end: return
        procedure child pop 1 pop 2
        pop 1
        pop 2
        return";
    let mut pair = SerialPair::new(&[7; WORKING], &[7; ANSWERS]);
    let mut run = |text: &str| {
        let due = pair.run(&job(text)).expect("they agree");
        due.expect("a job")
    };
    let replies = run(every_answer).events.into_iter().map(|e| e.reply);
    assert_eq!(
        replies.collect::<Vec<_>>(),
        [
            Pushed(5),
            Not,
            Empty,
            Spawned(1),
            Took(5),
            Empty,
            Finished,
            Moved,
            Finished
        ]
    );
    for (text, end, steps) in [
        (every_answer, End::Ended, 9),
        ("procedure top all\nhere: go here", End::Spent, 65_535),
        (ENDLESS_SPAWN, End::Refused(8), 127),
        (ENDLESS_PUSH, End::Refused(9), 2 * 4_096),
    ] {
        let run = run(text);
        assert_eq!((run.end, run.events.len()), (end, steps));
    }
}

/// Operation 10 takes 9, then finds nothing and goes past the addition, the
/// register being as it was. Each is one step, in both runs.
#[test]
fn operation_10_in_both_runs() {
    let bytes = job(
        "procedure top all\npush 0 9\ntake-or-go 0 four\npush-register 1 0
                     take-or-go 0 five\nfour: add 1\nfive: push-register 1 0\nreturn",
    );
    let due = [Pushed(9), Took(9), Pushed(9), Empty, Pushed(9), Finished];
    let mut serial = SerialPair::new(&[7; WORKING], &[7; ANSWERS]);
    let run = serial.run(&bytes).expect("they agree").expect("a job");
    let replies: Vec<_> = run.events.iter().map(|event| event.reply).collect();
    assert_eq!((run.end, &replies[..]), (End::Ended, &due[..]));
    assert_eq!(run.queues, [vec![], vec![9, 9], vec![], vec![]]);
    let mut pair = lent(bytes, WORDS, RUNNER);
    assert_eq!(pair.open(), Ok(DONE));
    steps(&mut pair, &due.map(|reply| (0, Did(reply))));
}

/// 1 for either memory, 10, 11 and 12: of an opening, a step and a map.
#[test]
fn refused_before_the_memories() {
    let whole = |(job, number)| (job, WORDS, RUNNER, number);
    let lengths = [
        (WORDS - 1, RUNNER),
        (WORDS + 1, RUNNER),
        (WORDS, RUNNER - 1),
        (WORDS, RUNNER + 1),
    ];
    let short = lengths.map(|(core, runner)| (job(IDLE), core, runner, 1));
    for (job, core, runner, number) in short.into_iter().chain(refused_jobs().map(whole)) {
        let mut pair = lent(job, core, runner);
        assert_eq!(pair.open(), Ok(Refused(number)));
        assert_eq!(pair.step(0), Ok(Refused(number)));
        assert_eq!(list(&mut pair, &[0, 0], 2).0, Refused(number));
        assert_eq!(map(&mut pair), (Refused(number), NOBODY));
    }
}

/// 2 for either memory, of a step and a map; then 4 of a step.
#[test]
fn refused_memories_and_tasks() {
    let (mut other_core, mut other_runner) = (opened(IDLE), opened(IDLE));
    other_core.model_core[LENGTH] = 0;
    other_runner.model_runner[RUNNER - 1] = 1;
    for pair in [&mut other_core, &mut other_runner] {
        pair.changed();
        assert_eq!(pair.step(0), Ok(Refused(2)));
        assert_eq!(map(pair), (Refused(2), NOBODY));
    }
    let mut pair = opened(IDLE);
    for t in [1, 128] {
        assert_eq!(pair.step(t), Ok(Refused(4)));
    }
}

/// Not as many places as tasks, of a job and of bytes that are none.
#[test]
fn lists_refused() {
    for bytes in [job(IDLE), vec![0; 3]] {
        for (tasks, places) in [(2, 1), (2, 3), (0, 1), (1, 0)] {
            let mut pair = lent(bytes.clone(), WORDS, RUNNER);
            let (answer, _) = list(&mut pair, &vec![0; tasks], places);
            assert_eq!(answer, Refused(1), "{tasks} tasks, {places} places");
        }
    }
}

/// Opens afresh over any words, and goes on behind a wait and a refusal.
#[test]
fn lists() {
    let text = "procedure top all\nspawn push 0\nspawn pop 0\nreturn
                procedure push push 0\npush 0 5\nreturn
                procedure pop pop 0\npop 0\nreturn";
    let due = [
        (0, Did(Spawned(1))),
        (0, Did(Spawned(2))),
        (2, Waits),
        (9, Refused(4)),
        (128, Refused(4)),
        (1, Did(Pushed(5))),
        (2, Did(Took(5))),
    ];
    let (tasks, answers): (Vec<u32>, Vec<Stepped>) = due.into_iter().unzip();
    for mut pair in [lent(job(text), WORDS, RUNNER), opened(text)] {
        assert_eq!(list(&mut pair, &tasks, 7), (DONE, answers.clone()));
        steps(&mut pair, &[(2, Did(Finished)), (0, Waits)]);
        assert_eq!(list(&mut pair, &[], 0), (DONE, vec![]));
        steps(&mut pair, &[(0, Did(Spawned(1)))]);
    }
}

/// A task waits for its older sibling at every operation.
#[test]
fn blocked() {
    for (line, then) in [
        ("return", Finished),
        ("push 0 1", Pushed(1)),
        ("push-register 0 1", Pushed(1)),
        ("pop 0", Empty),
        ("go-if-empty 0 end", Empty),
        ("take-or-go 0 end", Empty),
        ("go end", Moved),
        ("go-if-zero end", Moved),
        ("add 1", Moved),
        ("spawn older 0", Spawned(1)),
        ("sync", Moved),
    ] {
        let mut pair = opened(&format!(
            "procedure top all\nspawn older 0\nspawn younger 0\nreturn
             procedure older pop 0\nreturn
             procedure younger push 0 pop 0\n{line}\nend: return"
        ));
        steps(
            &mut pair,
            &[
                (0, Did(Spawned(1))),
                (0, Did(Spawned(2))),
                (2, Waits),
                (1, Did(Finished)),
                (2, Did(then)),
            ],
        );
    }
}

/// Operations 0, 8 and 9, and the waits for a child.
#[test]
fn waits_for_a_child() {
    for (line, due) in [("sync", DONE), ("return", Did(Finished))] {
        let mut pair = opened(&format!(
            "procedure top all\nspawn child 0\n{line}\nreturn\nprocedure child\nreturn"
        ));
        steps(
            &mut pair,
            &[
                (0, Did(Spawned(1))),
                (0, Waits),
                (1, Did(Finished)),
                (0, due),
            ],
        );
    }
}

const CHILDREN: &str = "procedure popper pop 0\nreturn\nprocedure pusher push 0\nreturn";

/// An operation that looks in queue 0 waits for a popping child and for a pusher,
/// and then finds the queue empty; the register is 5 at the end.
const AT_CHILDREN: [(u32, Stepped); 9] = [
    (0, Did(Spawned(1))),
    (0, Waits),
    (1, Did(Finished)),
    (0, Did(Empty)),
    (0, Did(Spawned(1))),
    (0, Waits),
    (1, Did(Finished)),
    (0, Did(Empty)),
    (0, Did(Pushed(5))),
];

/// Operation 3: a value, an empty queue, a popping child and a pusher.
#[test]
fn pops() {
    let mut pair = opened(&format!(
        "procedure top all\npush 0 5\npop 0\npop 0
         spawn popper 0\npop 0
         spawn pusher 0\npop 0\npush-register 0 0\nreturn\n{CHILDREN}"
    ));
    let found = [(0, Did(Pushed(5))), (0, Did(Took(5))), (0, Did(Empty))];
    steps(&mut pair, &found);
    steps(&mut pair, &AT_CHILDREN);
}

/// Operation 4: the same; where the queue is empty it goes past an addition.
#[test]
fn tests() {
    let mut pair = opened(&format!(
        "procedure top all\npush 0 5\ngo-if-empty 0 end\npop 0
         spawn popper 0\ngo-if-empty 0 on\nadd 1
         on: spawn pusher 0\ngo-if-empty 0 end\nadd 1
         end: push-register 0 0\nreturn\n{CHILDREN}"
    ));
    let found = [(0, Did(Pushed(5))), (0, Did(Not)), (0, Did(Took(5)))];
    steps(&mut pair, &found);
    steps(&mut pair, &AT_CHILDREN);
}

/// Operation 10: the same waits; where it takes, the next instruction follows; on
/// an empty queue it goes past an addition and leaves the register.
#[test]
fn takes_or_goes() {
    let mut pair = opened(&format!(
        "procedure top all\npush 0 5\ntake-or-go 0 end
         spawn popper 0\ntake-or-go 0 on\nadd 1
         on: spawn pusher 0\ntake-or-go 0 end\nadd 1
         end: push-register 0 0\nreturn\n{CHILDREN}"
    ));
    let found = [(0, Did(Pushed(5))), (0, Did(Took(5)))];
    steps(&mut pair, &found);
    steps(&mut pair, &AT_CHILDREN);
}

/// Operations 5, 6 (both ways) and 7; the register ends as 0.
#[test]
fn goes_and_adds() {
    let mut pair = opened(
        "procedure top all\nadd 1\ngo-if-zero end\nadd -1\ngo-if-zero on\nadd 9
         on: go end\nadd 9
         end: push-register 0 0\nreturn",
    );
    for due in [Moved, Moved, Moved, Moved, Moved, Pushed(0), Finished] {
        step(&mut pair, 0, Did(due));
    }
    assert_eq!(map(&mut pair), (DONE, NOBODY));
}

/// 9 of operations 1 and 2, when all 256 segments are held.
#[test]
fn no_segment() {
    for line in ["push 0 1", "push-register 0 1"] {
        let mut pair = opened(&format!("procedure top all\nagain: {line}\ngo again"));
        for _ in 0..253 {
            steps(&mut pair, &[(0, Did(Pushed(1))), (0, DONE)]);
        }
        step(&mut pair, 0, Refused(9));
        assert_eq!(map(&mut pair), (DONE, NOBODY));
    }
}

/// 8, when a chain of tasks uses all records. Each task but the last waits for
/// its child: nobody is ready, and 128 tasks are unfinished.
#[test]
fn no_record() {
    let mut pair = opened(ENDLESS_SPAWN);
    for t in 0..127 {
        assert_eq!(pair.step(t), Ok(Did(Spawned(t + 1))));
    }
    assert_eq!(map(&mut pair), (DONE, NOBODY));
    step(&mut pair, 126, Waits);
    step(&mut pair, 127, Refused(8));
}

/// The late 2: the tests before it pass, since the map is not refused.
#[test]
fn late() {
    let text = "procedure top all\npush 0 9\npush-register 0 9\nsync\nreturn
        procedure child push 0\nreturn";
    for (core, t, instruction) in [
        (hand::nonlocal_tail(8), 0, 0),
        (hand::nonlocal_tail(8), 0, 1),
        (hand::nonlocal_user_tail(8), 0, 0),
        (hand::nonlocal_user_tail(8), 0, 1),
        (hand::sync_to_itself(&[6]), 0, 2),
        (hand::sync_to_itself(&[6]), 0, 3),
        (hand::finish_to_itself(), 1, 0),
    ] {
        let mut runner = [0; RUNNER];
        runner[RECORD] = u32::from(status(&core.0, 1) == UNFINISHED);
        runner[RECORD * t as usize + 1] = instruction;
        let mut pair = RunnerPair::new(job(text), &core.0, &runner);
        step(&mut pair, t, Refused(2));
    }
}

/// One task is ready, in each word of the map.
#[test]
fn lowest() {
    for (last, due) in [
        (31, [1 << 31, 0, 0, 0, 1, 31]),
        (32, [0, 1, 0, 0, 1, 32]),
        (95, [0, 0, 1 << 31, 0, 1, 95]),
        (126, [0, 0, 0, 1 << 30, 1, 126]),
    ] {
        let mut pair = opened(&format!(
            "procedure top all\n{}return\nprocedure child\nreturn",
            "spawn child 0\n".repeat(last as usize)
        ));
        for t in 1..=last {
            assert_eq!(pair.step(0), Ok(Did(Spawned(t))));
        }
        for t in 1..last {
            assert_eq!(pair.step(t), Ok(Did(Finished)));
        }
        assert_eq!(map(&mut pair), (DONE, due));
    }
}
