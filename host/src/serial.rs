//! The serial runner: the plain machine with bounds, and the text of its run
//! in the form of document 01.

use crate::job::Job;
use crate::operations::{PUSH, PUSH_REGISTER, SPAWN};
use crate::plain::{Event, Machine};

pub const MOST_STEPS: u64 = 65_535;
/// The most tasks on the stack; the top is the first.
pub const MOST_DEPTH: usize = 128;
/// The most values in a queue.
pub const MOST_VALUES: usize = 4_096;

/// Why a run stopped.
#[derive(Clone, Copy, Debug, PartialEq, Eq)]
pub enum End {
    /// The top task has finished.
    Ended,
    /// The steps are used up.
    Spent,
    /// With the number of the refusal: 8 for the depth, 9 for the values.
    Refused(u32),
}

/// A run: the steps made, why it stopped, and the values then queued.
#[derive(Clone, Debug, PartialEq, Eq)]
pub struct Run {
    pub events: Vec<Event>,
    pub end: End,
    pub queues: [Vec<u32>; 4],
}

/// Runs the job up to its end or to a bound.
pub fn run(job: &Job) -> Run {
    let mut machine = Machine::new(job);
    let mut events = Vec::new();
    let end = loop {
        if let Some(end) = end(&machine) {
            break end;
        }
        events.extend(machine.step());
    };
    let queues = machine.queues().clone().map(Vec::from);
    Run {
        events,
        end,
        queues,
    }
}

/// Why the machine makes no further step, if so. "Spent" is tried first.
fn end(machine: &Machine) -> Option<End> {
    let Some(next) = machine.next() else {
        return Some(End::Ended);
    };
    let values = machine.queues().get(usize::from(next.which));
    if machine.steps() >= MOST_STEPS {
        return Some(End::Spent);
    }
    match next.operation {
        SPAWN if machine.depth() >= MOST_DEPTH => Some(End::Refused(8)),
        PUSH | PUSH_REGISTER if values.is_some_and(|v| v.len() >= MOST_VALUES) => {
            Some(End::Refused(9))
        }
        _ => None,
    }
}

/// What the serial run of any bytes prints: a line for each step with its
/// number from 1, task (numbered in the order of spawns), answer and value or
/// "-"; then a line "left" for each value queued at the end, or why the run
/// stopped. Of a refused job only the refusal is printed.
pub fn text(bytes: &[u8]) -> String {
    match Job::read(bytes) {
        Ok(job) => text_of(&run(&job)),
        Err(refusal) => format!("job refused {}\n", refusal.number()),
    }
}

/// The text of a run.
pub fn text_of(run: &Run) -> String {
    let numbered = (1..).zip(&run.events);
    let steps = numbered.map(|(number, e)| format!("{number} {} {}\n", e.task, e.reply));
    let end = match run.end {
        End::Ended => left(&run.queues),
        End::Spent => "spent\n".to_string(),
        End::Refused(number) => format!("refused {number}\n"),
    };
    steps.chain([end]).collect()
}

/// A line for each value still queued, queues and values in order.
fn left(queues: &[Vec<u32>; 4]) -> String {
    let lines = |(queue, values): (usize, &Vec<u32>)| -> String {
        let lines = values.iter().map(|value| format!("left {queue} {value}\n"));
        lines.collect()
    };
    queues.iter().enumerate().map(lines).collect()
}
