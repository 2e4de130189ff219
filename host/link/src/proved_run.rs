//! A run of a job through the proved runner, with the paths of its tasks.

use host::layout::WORDS;
use host::overlap::Log;
use host::overlap_text::line;
use host::plain::Reply;
use host::runner::{Stepped, RUNNER};
use hyperqueue::runner::{self, FINISHED, MOVED, PUSHED, SPAWNED, TOOK};
use hyperqueue::{core, Answer};
use std::fmt::Write;

pub struct ProvedRun<'a> {
    job: &'a [u8],
    core: Vec<u32>,
    runner: Vec<u32>,
    pub log: Log,
}

/// The answer of the library as the model says it.
pub fn stepped(Answer { status, value }: Answer) -> Stepped {
    Stepped::Moved(match status {
        Answer::WAITS => return Stepped::Waits,
        Answer::EMPTY => Reply::Empty,
        Answer::NOT_EMPTY => Reply::Not,
        SPAWNED => Reply::Spawned(value),
        PUSHED => Reply::Pushed(value),
        TOOK => Reply::Took(value),
        FINISHED => Reply::Finished,
        MOVED => Reply::Moved,
        number => return Stepped::Refused(number),
    })
}

impl<'a> ProvedRun<'a> {
    fn on(job: &'a [u8]) -> ProvedRun<'a> {
        ProvedRun {
            job,
            core: vec![0; WORDS],
            runner: vec![0; RUNNER],
            log: Log::default(),
        }
    }

    /// The job opened, or the number of the refusal.
    pub fn open(job: &'a [u8]) -> Result<ProvedRun<'a>, u32> {
        let mut run = ProvedRun::on(job);
        match stepped(runner::open(job, &mut run.core, &mut run.runner)) {
            Stepped::Refused(number) => Err(number),
            _ => Ok(run),
        }
    }

    /// The job opened and a list of steps made in one call, with their answers.
    pub fn of_list(job: &'a [u8], tasks: &[u32]) -> Result<(ProvedRun<'a>, Vec<Stepped>), u32> {
        let mut run = ProvedRun::on(job);
        let mut answers = vec![0; tasks.len()];
        let given = runner::run(job, &mut run.core, &mut run.runner, tasks, &mut answers);
        if let Stepped::Refused(number) = stepped(given) {
            return Err(number);
        }
        let answers: Vec<Stepped> = answers
            .into_iter()
            .map(|a| stepped(Answer::of(a)))
            .collect();
        for (t, answer) in tasks.iter().zip(&answers) {
            run.log.note(*t, *answer);
        }
        Ok((run, answers))
    }

    pub fn step(&mut self, t: u32) -> Stepped {
        let given = runner::step(self.job, &mut self.core, &mut self.runner, t);
        let answer = stepped(given);
        self.log.note(t, answer);
        answer
    }

    /// The procedure and the instruction of an unfinished task (docs/LAYOUT.md).
    pub fn place(&self, t: u32) -> (usize, usize) {
        let words = &self.runner[3 * t as usize..];
        (words[0] as usize, words[1] as usize)
    }

    /// The tasks whose next step would move.
    pub fn ready(&self) -> Vec<u32> {
        let mut out = [0; 6];
        if runner::ready(self.job, &self.core, &self.runner, &mut out).status != MOVED {
            return Vec::new();
        }
        let bit = |t: &u32| out[(t / 32) as usize] >> (t % 32) & 1 == 1;
        (0..128).filter(bit).collect()
    }

    /// The values left in a queue once the top has finished.
    pub fn left(&mut self, queue: u32) -> Vec<u32> {
        let value = |index| core::left(&mut self.core, queue, index).moved();
        (0..).map_while(value).collect()
    }
}

/// What a run prints.
pub struct Printed {
    pub text: String,
    /// No step was refused.
    pub fine: bool,
}

/// The text of the run in which each of `tasks` makes a step, or the number with
/// which the job is refused.
pub fn printed(job: &[u8], tasks: &[u8]) -> Result<Printed, u32> {
    let numbers: Vec<u32> = tasks.iter().copied().map(u32::from).collect();
    let (mut run, answers) = ProvedRun::of_list(job, &numbers)?;
    let (mut text, mut fine) = (String::new(), true);
    for (number, (task, answer)) in (1..).zip(tasks.iter().zip(answers)) {
        fine &= !matches!(answer, Stepped::Refused(_));
        text += &line(number, *task, answer);
    }
    let open = run.log.unfinished().len();
    if open > 0 {
        let _ = writeln!(text, "open {open}");
        return Ok(Printed { text, fine });
    }
    for queue in 0..4 {
        for value in run.left(queue) {
            let _ = writeln!(text, "left {queue} {value}");
        }
    }
    Ok(Printed { text, fine })
}
