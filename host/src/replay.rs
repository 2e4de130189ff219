//! The replay of a trace: each line's task is moved again, and the answer is
//! the first line that the run does not print, or that all agree. Document 02,
//! No. 1.

use crate::check::chain_values;
use crate::job::Job;
use crate::layout::{get, queue_head, status, QUEUES, TASKS, UNFINISHED, WORDS};
use crate::overlap_text;
use crate::runner::{self, RUNNER};
use crate::trace::{self, Line};

/// The refusal of bytes that are not a trace.
pub const TRACE_FORM: u32 = 13;

#[derive(Clone, Copy, Debug, PartialEq, Eq)]
pub enum Judged {
    /// The run prints every line of the trace, and perhaps more.
    Agrees,
    /// The number of the first line that it does not print, from 1.
    Differs(u32),
    Refused(u32),
}

impl Judged {
    /// The number of the case, as the library gives it.
    pub fn status(self) -> u32 {
        match self {
            Judged::Refused(number) => number,
            Judged::Differs(_) => 36,
            Judged::Agrees => 37,
        }
    }

    pub fn value(self) -> u32 {
        match self {
            Judged::Differs(line) => line,
            Judged::Agrees | Judged::Refused(_) => 0,
        }
    }
}

/// Judges the trace. The form of all its lines is tested before a step is made.
/// The words of core and runner are for working.
pub fn replay(job: &[u8], trace: &[u8], m: &mut [u32], r: &mut [u32]) -> Judged {
    if m.len() != WORDS || r.len() != RUNNER {
        return Judged::Refused(1);
    }
    let job = match Job::read(job) {
        Ok(job) => job,
        Err(refusal) => return Judged::Refused(refusal.number()),
    };
    match trace::read(trace) {
        Ok(lines) => judge(&job, &lines, m, r),
        Err(_) => Judged::Refused(TRACE_FORM),
    }
}

/// The first of the lines that is not printed. No call stands behind the end,
/// so the end is that of all calls.
fn judge(job: &Job, lines: &[Line], m: &mut [u32], r: &mut [u32]) -> Judged {
    runner::open_job(job, m, r);
    let mut behind = None;
    for (number, line) in (1..).zip(lines) {
        let due = match *line {
            Line::Call { task, .. } => Some(Line::Call {
                number,
                task,
                answer: runner::stepped(job, m, r, u32::from(task)),
            }),
            _ => behind.get_or_insert_with(|| end(m).into_iter()).next(),
        };
        if due != Some(*line) {
            return Judged::Differs(number);
        }
    }
    Judged::Agrees
}

/// The lines behind the calls: how many tasks are unfinished, or the values
/// left.
fn end(m: &[u32]) -> Vec<Line> {
    if status(m, 0) == UNFINISHED {
        let unfinished = (0..TASKS).filter(|t| status(m, *t) == UNFINISHED);
        return vec![Line::Open {
            unfinished: unfinished.count() as u32,
        }];
    }
    let left = |queue| {
        let values = chain_values(m, get(m, queue_head(0, queue)));
        values
            .into_iter()
            .map(move |value| Line::Left { queue, value })
    };
    (0..QUEUES).flat_map(left).collect()
}

/// The text that the run prints for the tasks of the trace's calls.
pub fn printed(job: &[u8], lines: &[Line]) -> String {
    let task = |line: &Line| match line {
        Line::Call { task, .. } => Some(*task),
        _ => None,
    };
    let tasks: Vec<u8> = lines.iter().filter_map(task).collect();
    overlap_text::text(job, &tasks)
}

/// The same answer by the text of the run, in which each step tests the job and
/// both memories again. Slower, and another way to say the same.
pub fn replay_by_text(job: &[u8], trace: &[u8]) -> Judged {
    if let Err(refusal) = Job::read(job) {
        return Judged::Refused(refusal.number());
    }
    let Ok(lines) = trace::read(trace) else {
        return Judged::Refused(TRACE_FORM);
    };
    let printed = printed(job, &lines);
    let mut due = printed.as_bytes().split_inclusive(|byte| *byte == b'\n');
    let mut given = trace.split_inclusive(|byte| *byte == b'\n');
    match given.position(|line| due.next() != Some(line)) {
        Some(at) => Judged::Differs(at as u32 + 1),
        None => Judged::Agrees,
    }
}
