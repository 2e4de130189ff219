//! Jobs with traces for the replay: as they are printed, begun, damaged, too
//! long, of no job, and with memories of other lengths.

use crate::asm::assemble;
use crate::crowds::CROWDS;
use crate::damaged_jobs;
use crate::damaged_traces::damaged;
use crate::layout::WORDS;
use crate::overlap_text::{order, text};
use crate::random::Random;
use crate::random_jobs::accepted;
use crate::runner::RUNNER;
use crate::trace::MOST_LINES;

/// What a replay is asked.
#[derive(Clone, Debug)]
pub struct Case {
    pub job: Vec<u8>,
    pub trace: Vec<u8>,
    /// Words lent to the core and to the runner.
    pub words: usize,
    pub runner: usize,
}

impl Case {
    fn new(job: &[u8], trace: Vec<u8>) -> Case {
        Case {
            job: job.to_vec(),
            trace,
            words: WORDS,
            runner: RUNNER,
        }
    }
}

/// The jobs of `jobs/`.
const JOBS: [&str; 11] = [
    include_str!("../../jobs/checker-fan.txt"),
    include_str!("../../jobs/counted-loop.txt"),
    include_str!("../../jobs/cut-check-print.txt"),
    include_str!("../../jobs/decode-alarm.txt"),
    include_str!("../../jobs/document-01.txt"),
    include_str!("../../jobs/download-bench.txt"),
    include_str!("../../jobs/drain.txt"),
    include_str!("../../jobs/empty-pop.txt"),
    include_str!("../../jobs/stages-by-recursion.txt"),
    include_str!("../../jobs/too-deep.txt"),
    include_str!("../../jobs/wrap-around.txt"),
];

/// Jobs for many lines: one without end, and one that leaves 8,000 values.
const LONG_JOBS: [&str; 2] = [
    "length 3
     procedure top all
     spawn child 7
     again: push 0 5
     go-if-empty 1 on
     pop 1
     on: go again
     procedure child pop 0 push 1
     again: pop 0
     push-register 1 1
     go again",
    "length 64
     procedure top all
     add 2000
     more: push-register 0 0
     push-register 1 9
     push-register 2 0
     push 3 4294967295
     add -1
     go-if-zero done
     go more
     done: return",
];

fn job_of(text: &str) -> Vec<u8> {
    assemble(text).expect("the job assembles")
}

/// A job, and what it prints under a random order.
fn recorded(r: &mut Random) -> (Vec<u8>, Vec<u8>) {
    let job = match r.chance(20) {
        true => job_of(r.pick(&[&JOBS[..], &CROWDS].concat())),
        false => accepted(r),
    };
    let most = match r.below(50) {
        0 => r.within(200, 700),
        1..10 => r.below(4),
        10..30 => r.within(4, 20),
        _ => r.within(10, 60),
    };
    let tasks = order(&job, r, most);
    let trace = text(&job, &tasks).into_bytes();
    (job, trace)
}

/// The first lines of a trace.
fn beginning(r: &mut Random, trace: &[u8]) -> Vec<u8> {
    let lines: Vec<&[u8]> = trace.split_inclusive(|byte| *byte == b'\n').collect();
    lines[..r.below(lines.len() as u32 + 1) as usize].concat()
}

/// A trace as it is printed, a beginning of it, and damaged copies.
pub fn of_a_run(r: &mut Random) -> Vec<Case> {
    let (job, trace) = recorded(r);
    let mut traces = vec![beginning(r, &trace)];
    for _ in 0..4 {
        traces.push(damaged(r, &trace));
    }
    traces.push(damaged(r, &traces[0]));
    traces.push(trace);
    traces
        .into_iter()
        .map(|trace| Case::new(&job, trace))
        .collect()
}

/// Bytes that are mostly no job and memories of mostly wrong lengths, with
/// traces that may have another form.
pub fn turned_down(r: &mut Random) -> Vec<Case> {
    let (job, trace) = recorded(r);
    let near = |r: &mut Random, due: usize| r.pick(&[due, due - 1, due + 1, 0, 1, 2 * due]);
    let mut cases = Vec::new();
    for of_job in [false, true] {
        for of_lengths in [false, true] {
            let bytes = match of_job {
                true => damaged_jobs::damaged(r, &job),
                false => job.clone(),
            };
            let trace = match r.chance(60) {
                true => damaged(r, &trace),
                false => trace.clone(),
            };
            let mut case = Case::new(&bytes, trace);
            if of_lengths {
                (case.words, case.runner) = (near(r, WORDS), near(r, RUNNER));
            }
            cases.push(case);
        }
    }
    cases
}

/// As many lines as a trace may have, whole, damaged, and with more behind them.
pub fn of_many_lines(r: &mut Random) -> Vec<Case> {
    let job = job_of(r.pick(&LONG_JOBS));
    let trace = most_lines(r, &job);
    let without_feed = trace[..trace.len() - 1].to_vec();
    let begun = beginning(r, &trace);
    let behind = |more: &str| [&trace, more.as_bytes()].concat();
    let mut traces = vec![behind("open 1\n"), behind("65536 0 moved -\n"), behind("l")];
    traces.extend([without_feed, damaged(r, &trace), damaged(r, &trace), begun]);
    traces.push(last_changed(&trace));
    traces.push(trace);
    traces
        .into_iter()
        .map(|trace| Case::new(&job, trace))
        .collect()
}

/// A printed trace of exactly the most lines: calls of the first tasks, as many
/// as leave room for the end.
fn most_lines(r: &mut Random, job: &[u8]) -> Vec<u8> {
    let mut tasks: Vec<u8> = (0..MOST_LINES).map(|_| r.below(2) as u8).collect();
    loop {
        let trace = text(job, &tasks).into_bytes();
        let lines = trace.iter().filter(|byte| **byte == b'\n').count();
        if lines == MOST_LINES {
            return trace;
        }
        tasks.truncate(tasks.len() + MOST_LINES - lines);
    }
}

/// The trace with another last digit.
fn last_changed(trace: &[u8]) -> Vec<u8> {
    let mut trace = trace.to_vec();
    let last = trace.len() - 2;
    trace[last] = if trace[last] == b'0' { b'1' } else { b'0' };
    trace
}
