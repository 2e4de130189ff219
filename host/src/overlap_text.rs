//! The text of a job's run under an order of calls, in the form of document 01,
//! and random orders.

use crate::answer::Answer;
use crate::calls;
use crate::layout::{status, TASKS, UNFINISHED, WORDS};
use crate::random::Random;
use crate::runner::{self, Stepped, RUNNER};

/// A job that was opened.
struct Open<'a> {
    job: &'a [u8],
    m: Vec<u32>,
    r: Vec<u32>,
}

impl Open<'_> {
    fn new(job: &[u8]) -> Result<Open<'_>, u32> {
        let (mut m, mut r) = (vec![0; WORDS], vec![0; RUNNER]);
        match runner::open(job, &mut m, &mut r) {
            Stepped::Refused(number) => Err(number),
            _ => Ok(Open { job, m, r }),
        }
    }

    fn step(&mut self, task: u8) -> Stepped {
        runner::step(self.job, &mut self.m, &mut self.r, u32::from(task))
    }

    fn unfinished(&self) -> Vec<u32> {
        (0..TASKS)
            .filter(|t| status(&self.m, *t) == UNFINISHED)
            .collect()
    }

    /// The values left in a queue.
    fn left(&mut self, q: u32) -> Vec<u32> {
        let values = (0..).map_while(|i| match calls::left(&mut self.m, q, i) {
            Answer::Moved(value) => Some(value),
            _ => None,
        });
        values.collect()
    }

    /// The values left, or how many tasks are unfinished.
    fn end(&mut self) -> String {
        if status(&self.m, 0) == UNFINISHED {
            return format!("open {}\n", self.unfinished().len());
        }
        let mut text = String::new();
        for q in 0..4 {
            for value in self.left(q) {
                text += &format!("left {q} {value}\n");
            }
        }
        text
    }
}

/// The line of a call.
pub fn line(number: usize, task: u8, answer: Stepped) -> String {
    let said = match answer {
        Stepped::Moved(reply) => reply.to_string(),
        Stepped::Waits => "waits -".to_string(),
        Stepped::Refused(reason) => format!("refused {reason}"),
    };
    format!("{number} {task} {said}\n")
}

/// What the run of any bytes prints, where each of `tasks` makes a step.
pub fn text(bytes: &[u8], tasks: &[u8]) -> String {
    let mut run = match Open::new(bytes) {
        Ok(run) => run,
        Err(number) => return format!("job refused {number}\n"),
    };
    let mut text = String::new();
    for (number, task) in (1..).zip(tasks) {
        text += &line(number, *task, run.step(*task));
    }
    text + &run.end()
}

/// A random order of at most `most` calls: mostly unfinished tasks, sometimes
/// any number, and a call or two when all have finished.
pub fn order(bytes: &[u8], random: &mut Random, most: u32) -> Vec<u8> {
    let Ok(mut run) = Open::new(bytes) else {
        return vec![0; most as usize];
    };
    let mut tasks = Vec::new();
    for _ in 0..most {
        let unfinished = run.unfinished();
        let task = if unfinished.is_empty() || random.chance(5) {
            random.below(256) as u8
        } else {
            random.pick(&unfinished) as u8
        };
        run.step(task);
        tasks.push(task);
        if unfinished.is_empty() && random.chance(50) {
            break;
        }
    }
    tasks
}
