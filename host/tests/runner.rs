//! The runner of the model: document 01's run, refusals, and demand 3 on random
//! jobs under random orders.

use host::answer::Answer;
use host::asm;
use host::calls;
use host::job::Job;
use host::layout::WORDS;
use host::overlap::{Log, Plain};
use host::plain::Reply::*;
use host::random::Random;
use host::random_jobs::accepted;
use host::runner::{open, ready, step, Stepped, RUNNER};

struct Run {
    job: Vec<u8>,
    core: Vec<u32>,
    runner: Vec<u32>,
}

impl Run {
    fn of(job: Vec<u8>) -> Run {
        let mut run = Run {
            job,
            core: vec![7; WORDS],
            runner: vec![7; RUNNER],
        };
        let answer = open(&run.job, &mut run.core, &mut run.runner);
        assert_eq!(answer, Stepped::Moved(Moved));
        run
    }

    /// A call that does not move changes no word.
    fn step(&mut self, t: u32) -> Stepped {
        let before = (self.core.clone(), self.runner.clone());
        let answer = step(&self.job, &mut self.core, &mut self.runner, t);
        if !answer.moved() {
            assert!(before == (self.core.clone(), self.runner.clone()));
        }
        answer
    }

    /// The bit of a task in the ready map.
    fn ready(&self, t: u32) -> bool {
        let map = ready(&self.job, &self.core, &self.runner).1;
        map.words[(t / 32) as usize] >> (t % 32) & 1 == 1
    }

    fn left(&mut self) -> [Vec<u32>; 4] {
        [0, 1, 2, 3].map(|q| {
            let values = (0..).map_while(|i| match calls::left(&mut self.core, q, i) {
                Answer::Moved(value) => Some(value),
                _ => None,
            });
            values.collect()
        })
    }
}

fn document_01() -> Vec<u8> {
    let text = include_str!("../../jobs/document-01.txt");
    asm::assemble(text).expect("the job of document 01")
}

#[test]
fn the_run_of_document_01() {
    let mut run = Run::of(document_01());
    let due = [
        (0, Stepped::Moved(Spawned(1))),
        (0, Stepped::Moved(Spawned(2))),
        (0, Stepped::Moved(Spawned(3))),
        (3, Stepped::Moved(Pushed(20))),
        (2, Stepped::Waits),
        (1, Stepped::Moved(Pushed(10))),
        (2, Stepped::Moved(Took(10))),
        (1, Stepped::Moved(Finished)),
        (2, Stepped::Moved(Finished)),
        (3, Stepped::Moved(Finished)),
        (0, Stepped::Moved(Moved)),
        (0, Stepped::Moved(Finished)),
    ];
    for (t, answer) in due {
        assert_eq!(run.ready(t), answer.moved());
        assert_eq!(run.step(t), answer);
    }
    assert_eq!(run.left(), [vec![20], vec![], vec![], vec![]]);
    assert!(run.runner.iter().all(|word| *word == 0));
}

const TAKERS: &str = "length 1
    procedure top all
    spawn pusher 0
    spawn taker 7
    spawn taker 7
    return
    procedure pusher push 0
    push 0 5
    return
    procedure taker pop 0 push 1
    spawn popper 0
    take-or-go 0 end
    push-register 1 0
    end: push-register 1 100
    return
    procedure popper pop 0
    return";

/// Operation 10 waits as a pop does, for an older sibling, a pusher and a popping
/// child, and moves with a value and without; the map says so before each step.
#[test]
fn operation_10() {
    let mut run = Run::of(asm::assemble(TAKERS).expect("a job"));
    let due = [
        (0, Stepped::Moved(Spawned(1))),
        (0, Stepped::Moved(Spawned(2))),
        (0, Stepped::Moved(Spawned(3))),
        (3, Stepped::Waits),
        (2, Stepped::Moved(Spawned(4))),
        (2, Stepped::Waits),
        (4, Stepped::Moved(Finished)),
        (2, Stepped::Waits),
        (1, Stepped::Moved(Pushed(5))),
        (2, Stepped::Moved(Took(5))),
        (2, Stepped::Moved(Pushed(5))),
        (2, Stepped::Moved(Pushed(105))),
        (1, Stepped::Moved(Finished)),
        (2, Stepped::Moved(Finished)),
        (3, Stepped::Moved(Spawned(2))),
        (2, Stepped::Moved(Finished)),
        (3, Stepped::Moved(Empty)),
        (3, Stepped::Moved(Pushed(107))),
        (3, Stepped::Moved(Finished)),
        (0, Stepped::Moved(Finished)),
    ];
    for (t, answer) in due {
        assert_eq!(run.ready(t), answer.moved(), "the bit of task {t}");
        assert_eq!(run.step(t), answer, "task {t}");
    }
    assert_eq!(run.left(), [vec![], vec![5, 105, 107], vec![], vec![]]);
}

#[test]
fn the_order_of_refusals() {
    let (job, zeros) = (document_01(), vec![0; WORDS]);
    let go = |job: &[u8], core: &[u32], runner: &[u32], t| {
        step(job, &mut core.to_vec(), &mut runner.to_vec(), t)
    };
    assert_eq!(go(&job, &zeros[1..], &[0; RUNNER], 0), Stepped::Refused(1));
    assert_eq!(go(&job, &zeros, &[0; RUNNER - 1], 0), Stepped::Refused(1));
    assert_eq!(go(&[0; 3], &zeros, &[0; RUNNER], 0), Stepped::Refused(10));
    assert_eq!(go(&job, &zeros, &[0; RUNNER], 128), Stepped::Refused(2));
    let mut run = Run::of(job);
    assert_eq!(run.step(128), Stepped::Refused(4));
    assert_eq!(run.step(1), Stepped::Refused(4));
    run.runner[383] = 1;
    assert_eq!(run.step(0), Stepped::Refused(2));
}

/// The task of the next call: mostly one that is unfinished.
fn somebody(r: &mut Random, log: &Log) -> u32 {
    let unfinished = log.unfinished();
    if unfinished.is_empty() || r.chance(20) {
        return r.below(130);
    }
    r.pick(&unfinished)
}

#[test]
fn any_order_agrees_with_the_plain_machine() {
    let mut ended = 0;
    for seed in 0..400 {
        let r = &mut Random::new(seed);
        let job = accepted(r);
        let Some(plain) = Plain::run(&Job::read(&job).expect("a job"), 2_000) else {
            continue;
        };
        let (mut run, mut log) = (Run::of(job), Log::default());
        for _ in 0..6 * plain.steps {
            let t = somebody(r, &log);
            let answer = run.step(t);
            log.note(t, answer);
        }
        assert_eq!(plain.differs(&log), None, "seed {seed}");
        if log.unfinished().is_empty() {
            assert_eq!(run.left(), plain.lists, "seed {seed}");
            ended += 1;
        }
    }
    assert!(ended > 100, "{ended} runs ended");
}
