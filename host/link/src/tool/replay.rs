//! The replay of a recorded run. The library answers; the model's reader of
//! traces only says in words what the library refused.

use super::prints::told;
use super::words::Words;
use super::{input, Fault, Said};
use crate::proved_run::printed;
use host::layout::WORDS;
use host::runner::RUNNER;
use host::trace::{self, Line};
use hyperqueue::{traces, Answer};

/// The most signs of a line that are shown.
const MOST_SHOWN: usize = 120;

pub fn replay(words: &Words) -> Result<Said, Fault> {
    let job = input::job(words.file)?.bytes;
    let trace = input::bytes(words.one())?;
    let Answer { status, value } =
        traces::replay(&job, &trace, &mut vec![0; WORDS], &mut vec![0; RUNNER]);
    Ok(match status {
        Answer::AGREES => Said::fine(agree(&job, &trace)),
        Answer::DIFFERS => Said::only(false, differ(&job, &trace, value as usize)),
        Answer::TRACE_FORM => Said::only(false, malformed(&trace)),
        number => told(&job, number),
    })
}

/// The lines that the run prints for the calls of the trace.
fn due(job: &[u8], trace: &[u8]) -> Vec<String> {
    let task = |line: &Line| match line {
        Line::Call { task, .. } => Some(*task),
        _ => None,
    };
    let lines = trace::read(trace).unwrap_or_default();
    let tasks: Vec<u8> = lines.iter().filter_map(task).collect();
    let text = printed(job, &tasks).map_or(String::new(), |printed| printed.text);
    text.lines().map(str::to_string).collect()
}

fn agree(job: &[u8], trace: &[u8]) -> String {
    let due = due(job, trace);
    let lines = trace.split_inclusive(|byte| *byte == b'\n').count();
    let stops = due.get(lines).map_or(String::new(), |next| {
        format!("; the trace stops before: {next}")
    });
    let of = due.len();
    format!("all agree: {lines} lines of {of} that the run of these calls prints{stops}\n")
}

fn differ(job: &[u8], trace: &[u8], number: usize) -> String {
    let due = due(job, trace);
    let expected = match due.get(number - 1) {
        Some(line) => line.clone(),
        None => format!("no such line, the run of these calls prints {}", due.len()),
    };
    let given = shown(line_of(trace, number));
    format!("line {number} differs\ntrace:    {given}\nexpected: {expected}\n")
}

/// The refusal, with the first line that is none and why.
fn malformed(trace: &[u8]) -> String {
    let refused = "trace refused 13";
    match trace::read(trace) {
        Err(why) => {
            let (number, line) = (why.line, shown(line_of(trace, why.line)));
            format!(
                "{refused}: line {number}: {}\ntrace:    {line}\n",
                why.fault
            )
        }
        Ok(_) => format!("{refused}\n"),
    }
}

/// Line number `number`, from 1, with its line feed if it has one.
fn line_of(trace: &[u8], number: usize) -> &[u8] {
    let mut lines = trace.split_inclusive(|byte| *byte == b'\n');
    lines.nth(number - 1).unwrap_or_default()
}

/// A line as it can be printed: its odd bytes escaped, and a long one cut.
fn shown(line: &[u8]) -> String {
    let line = line.strip_suffix(b"\n").unwrap_or(line);
    let first = &line[..line.len().min(MOST_SHOWN)];
    let more = match line.len() - first.len() {
        0 => String::new(),
        more => format!(" and {more} bytes more"),
    };
    format!("{}{more}", first.escape_ascii())
}
