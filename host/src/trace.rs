//! A trace, the printed lines of somebody's run of a job: its lines read from
//! any bytes. Document 02, No. 1, says which forms a line has.

use crate::overlap_text;
use crate::plain::Reply;
use crate::runner::Stepped;
use std::fmt;

/// The most lines of a trace.
pub const MOST_LINES: usize = 65_535;
const MOST_TASK: u32 = 255;
const MOST_QUEUE: u32 = 3;

/// A line. Each has one way to be written, so that two lines are the same
/// where their texts are.
#[derive(Clone, Copy, Debug, PartialEq, Eq)]
pub enum Line {
    Call {
        number: u32,
        task: u8,
        answer: Stepped,
    },
    Left {
        queue: u32,
        value: u32,
    },
    Open {
        unfinished: u32,
    },
}

impl Line {
    pub fn is_call(&self) -> bool {
        matches!(self, Line::Call { .. })
    }
}

/// The line as it is printed, with its line feed.
impl fmt::Display for Line {
    fn fmt(&self, f: &mut fmt::Formatter) -> fmt::Result {
        match *self {
            Line::Call {
                number,
                task,
                answer,
            } => f.write_str(&overlap_text::line(number as usize, task, answer)),
            Line::Left { queue, value } => writeln!(f, "left {queue} {value}"),
            Line::Open { unfinished } => writeln!(f, "open {unfinished}"),
        }
    }
}

/// What keeps a line from being one of a trace. Document 02 has one number for
/// all of them; the rest is for the people who send traces.
#[derive(Clone, Copy, Debug, PartialEq, Eq)]
pub enum Fault {
    TooManyLines,
    NoLineFeed,
    OtherForm,
    NoNumber,
    LeadingZero,
    TooLarge,
    NoSuchTask,
    NoSuchQueue,
    NoSuchAnswer,
    NumberGoesWithIt,
    DashGoesWithIt,
    CallBehindTheEnd,
}

impl fmt::Display for Fault {
    fn fmt(&self, f: &mut fmt::Formatter) -> fmt::Result {
        f.write_str(match self {
            Fault::TooManyLines => "a trace has at most 65,535 lines",
            Fault::NoLineFeed => "no line feed ends it",
            Fault::OtherForm => {
                "a line is `NUMBER TASK ANSWER VALUE`, `left QUEUE VALUE` or `open NUMBER`, with one blank between"
            }
            Fault::NoNumber => "a number is written in digits alone",
            Fault::LeadingZero => "a number has no leading zeros",
            Fault::TooLarge => "a number is at most 4,294,967,295",
            Fault::NoSuchTask => "a task is at most 255",
            Fault::NoSuchQueue => "a queue is at most 3",
            Fault::NoSuchAnswer => "no such answer",
            Fault::NumberGoesWithIt => "a number goes with this answer",
            Fault::DashGoesWithIt => "`-` goes with this answer",
            Fault::CallBehindTheEnd => "a call stands behind `left` or `open`",
        })
    }
}

/// The first line that cannot stand where it does, counted from 1.
#[derive(Clone, Copy, Debug, PartialEq, Eq)]
pub struct Malformed {
    pub line: usize,
    pub fault: Fault,
}

/// The lines of a trace.
pub fn read(trace: &[u8]) -> Result<Vec<Line>, Malformed> {
    let mut lines = Vec::new();
    for text in trace.split_inclusive(|byte| *byte == b'\n') {
        let next = next_line(&lines, text).map_err(|fault| Malformed {
            line: lines.len() + 1,
            fault,
        })?;
        lines.push(next);
    }
    Ok(lines)
}

/// The line of this text, behind those that were read.
fn next_line(before: &[Line], text: &[u8]) -> Result<Line, Fault> {
    if before.len() == MOST_LINES {
        return Err(Fault::TooManyLines);
    }
    let line = line(text.strip_suffix(b"\n").ok_or(Fault::NoLineFeed)?)?;
    let ended = before.last().is_some_and(|last| !last.is_call());
    if ended && line.is_call() {
        return Err(Fault::CallBehindTheEnd);
    }
    Ok(line)
}

/// A line without its line feed. Two blanks have an empty word between them,
/// and so have a blank and an end of the line.
fn line(text: &[u8]) -> Result<Line, Fault> {
    let mut words = text.split(|byte| *byte == b' ');
    let first: [Option<&[u8]>; 5] = std::array::from_fn(|_| words.next());
    match first {
        [Some(b"left"), Some(queue), Some(value), None, None] => Ok(Line::Left {
            queue: at_most(MOST_QUEUE, number(queue)?, Fault::NoSuchQueue)?,
            value: number(value)?,
        }),
        [Some(b"open"), Some(unfinished), None, None, None] => Ok(Line::Open {
            unfinished: number(unfinished)?,
        }),
        [Some(call), Some(task), Some(word), Some(value), None] => Ok(Line::Call {
            number: number(call)?,
            task: at_most(MOST_TASK, number(task)?, Fault::NoSuchTask)? as u8,
            answer: answer(word, value)?,
        }),
        _ => Err(Fault::OtherForm),
    }
}

fn at_most(most: u32, number: u32, fault: Fault) -> Result<u32, Fault> {
    if number > most {
        return Err(fault);
    }
    Ok(number)
}

/// A number of at most 32 bits.
fn number(word: &[u8]) -> Result<u32, Fault> {
    if word.is_empty() || !word.iter().all(u8::is_ascii_digit) {
        return Err(Fault::NoNumber);
    }
    if word.len() > 1 && word[0] == b'0' {
        return Err(Fault::LeadingZero);
    }
    let digit = |sum: u32, digit: &u8| sum.checked_mul(10)?.checked_add(u32::from(digit - b'0'));
    word.iter().try_fold(0, digit).ok_or(Fault::TooLarge)
}

/// An answer and what goes with it: a number, or "-".
fn answer(word: &[u8], value: &[u8]) -> Result<Stepped, Fault> {
    let with_number = || match value {
        b"-" => Err(Fault::NumberGoesWithIt),
        _ => number(value),
    };
    let with_dash = |answer| match value {
        b"-" => Ok(answer),
        _ => Err(Fault::DashGoesWithIt),
    };
    match word {
        b"spawned" => Ok(Stepped::Moved(Reply::Spawned(with_number()?))),
        b"pushed" => Ok(Stepped::Moved(Reply::Pushed(with_number()?))),
        b"took" => Ok(Stepped::Moved(Reply::Took(with_number()?))),
        b"refused" => Ok(Stepped::Refused(with_number()?)),
        b"finished" => with_dash(Stepped::Moved(Reply::Finished)),
        b"moved" => with_dash(Stepped::Moved(Reply::Moved)),
        b"empty" => with_dash(Stepped::Moved(Reply::Empty)),
        b"not" => with_dash(Stepped::Moved(Reply::Not)),
        b"waits" => with_dash(Stepped::Waits),
        _ => Err(Fault::NoSuchAnswer),
    }
}
