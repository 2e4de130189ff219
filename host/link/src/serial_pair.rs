//! The linked job test and serial runner beside the model's.

use crate::guarded::Guarded;
use crate::linked_jobs::{self, answer_words, packed, queues, ANSWERS, WORKING};
use host::job::Job;
use host::serial::{self, End, Run};

/// What the library's runner is lent, and the words for answers as they should
/// be. They stay from run to run, so each run finds what the last one left.
pub struct SerialPair {
    working: Guarded,
    answers: Guarded,
    due_answers: Vec<u32>,
}

/// What the model gives: a run, or the number of a refusal.
pub type Due = Result<Run, u32>;

impl SerialPair {
    pub fn new(working: &[u32], answers: &[u32]) -> SerialPair {
        SerialPair {
            working: Guarded::new(working),
            answers: Guarded::new(answers),
            due_answers: answers.to_vec(),
        }
    }

    /// Runs the job on both; says what differs.
    pub fn run(&mut self, job: &[u8]) -> Result<Due, String> {
        let due = self.due(job);
        let events = due.as_ref().map_or(&[][..], |run| &run.events);
        for (event, words) in events.iter().zip(self.due_answers.chunks_exact_mut(3)) {
            words.copy_from_slice(&answer_words(event.task, event.reply));
        }
        let end = due
            .as_ref()
            .map_or_else(|k| End::Refused(*k), |run| run.end);
        let steps = events.len();
        let before = self.working.words().to_vec();
        let given = linked_jobs::run_serially(job, self.working.lend(), self.answers.lend());
        if given != packed(end, steps) {
            let (status, made) = (given >> 32, given & 0xFFFF_FFFF);
            return Err(format!(
                "end {status} after {made} steps, model {end:?} after {steps}"
            ));
        }
        self.words_differ(&due, &before).map_or(Ok(due), Err)
    }

    fn due(&self, job: &[u8]) -> Due {
        if self.working.words().len() != WORKING || self.due_answers.len() != ANSWERS {
            return Err(1);
        }
        match Job::read(job) {
            Ok(job) => Ok(serial::run(&job)),
            Err(refusal) => Err(refusal.number()),
        }
    }

    /// A refused job changes no word; a run leaves the queues that are due.
    fn words_differ(&self, due: &Due, before: &[u32]) -> Option<String> {
        let mut answers = self.answers.words().iter().zip(&self.due_answers);
        if let Some(at) = answers.position(|(given, due)| given != due) {
            let (step, word) = (at / 3, at % 3);
            return Some(format!("word {word} of the answer to step {step}"));
        }
        let queued = match due {
            Ok(run) => queues(self.working.words()) == run.queues,
            Err(_) => self.working.words() == before,
        };
        if !queued {
            return Some("the queues".to_string());
        }
        let overrun = self.working.overrun() || self.answers.overrun();
        overrun.then(|| "words outside those lent".to_string())
    }
}

/// The status of the job test on both; says where they differ.
pub fn test(job: &[u8]) -> Result<u32, String> {
    let given = linked_jobs::job_test(job);
    let due = Job::read(job).map_or_else(|refusal| refusal.number(), |_| 0);
    if given == u64::from(due) << 32 {
        Ok(due)
    } else {
        Err(format!("job test {given:#x}, model {due}"))
    }
}
