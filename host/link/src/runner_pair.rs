//! The linked runner and the model's side by side: every call is made on both,
//! and the answers, all words of both memories and the ready maps are compared.

use crate::guarded::Guarded;
use crate::linked_runner::{self, map_words, packed, Map};
use host::job::{ENTRY, HEAD, INSTRUCTION};
use host::runner::{self, Stepped, RECORD};

/// How the library opens a job, makes a step or a list of them and gives the
/// ready map.
#[derive(Clone, Copy)]
pub struct RunnerLibrary {
    pub open: fn(&[u8], &mut [u32], &mut [u32]) -> u64,
    pub step: fn(&[u8], &mut [u32], &mut [u32], u32) -> u64,
    pub run: fn(&[u8], &mut [u32], &mut [u32], &[u32], &mut [u64]) -> u64,
    pub ready: fn(&[u8], &[u32], &[u32], &mut Map) -> u64,
}

/// The linked library.
pub const LINKED: RunnerLibrary = RunnerLibrary {
    open: linked_runner::open,
    step: linked_runner::step,
    run: linked_runner::run,
    ready: linked_runner::ready,
};

/// What stands in a place for an answer before the call.
const UNSET: u64 = 0x0123_4567_89AB_CDEF;

pub struct RunnerPair {
    /// The linked library; a test puts one that errs in its place.
    pub library: RunnerLibrary,
    pub job: Vec<u8>,
    core: Guarded,
    runner: Guarded,
    map: Guarded,
    pub model_core: Vec<u32>,
    pub model_runner: Vec<u32>,
}

impl RunnerPair {
    /// A job, and words that both are lent.
    pub fn new(job: Vec<u8>, core: &[u32], runner: &[u32]) -> RunnerPair {
        RunnerPair {
            library: LINKED,
            job,
            core: Guarded::new(core),
            runner: Guarded::new(runner),
            map: Guarded::new(&[9; 6]),
            model_core: core.to_vec(),
            model_runner: runner.to_vec(),
        }
    }

    /// Gives both the words of the model again, after these were changed.
    pub fn changed(&mut self) {
        self.core.set(&self.model_core);
        self.runner.set(&self.model_runner);
    }

    pub fn open(&mut self) -> Result<Stepped, String> {
        let due = runner::open(&self.job, &mut self.model_core, &mut self.model_runner);
        let given = (self.library.open)(&self.job, self.core.lend(), self.runner.lend());
        self.same("open", given, due)
    }

    /// The operation of a task's next instruction, where these words name one.
    pub fn operation(&self, t: u32) -> Option<u8> {
        let job = &self.job;
        let place = self.model_runner.get(RECORD * t as usize..)?;
        let [procedure, instruction] = [*place.first()?, *place.get(1)?].map(|word| word as usize);
        let entry = job.get(HEAD + ENTRY * procedure..)?;
        let body = usize::from(u16::from_le_bytes([*entry.first()?, *entry.get(1)?]));
        job.get(body + INSTRUCTION * instruction).copied()
    }

    pub fn step(&mut self, t: u32) -> Result<Stepped, String> {
        let due = runner::step(&self.job, &mut self.model_core, &mut self.model_runner, t);
        let given = (self.library.step)(&self.job, self.core.lend(), self.runner.lend(), t);
        self.same(&format!("step {t}"), given, due)
    }

    /// A list of steps in one call, with so many places for their answers; and
    /// the answers.
    pub fn run(&mut self, tasks: &[u32], places: usize) -> Result<(Stepped, Vec<Stepped>), String> {
        let (mut answers, unset) = (Guarded::new(&vec![UNSET; places]), Stepped::Refused(0));
        let mut due_answers = vec![unset; places];
        let due = runner::run(
            &self.job,
            &mut self.model_core,
            &mut self.model_runner,
            tasks,
            &mut due_answers,
        );
        let (core, runner) = (self.core.lend(), self.runner.lend());
        let given = (self.library.run)(&self.job, core, runner, tasks, answers.lend());
        let pairs = answers.words().iter().zip(&due_answers);
        let place = |answer: Stepped| match answer == unset {
            true => UNSET,
            false => packed(answer),
        };
        let other = |(given, due): (&u64, &Stepped)| *given != place(*due);
        if let Some(at) = pairs.map(other).position(|other| other) {
            let (given, due) = (answers.words()[at], due_answers[at]);
            return Err(format!("run: answer {at} is {given:#x}, model {due:?}"));
        }
        if answers.overrun() {
            return Err("run: an answer outside the places lent".to_string());
        }
        Ok((self.same("run", given, due)?, due_answers))
    }

    /// The ready map of both.
    pub fn ready(&mut self) -> Result<Stepped, String> {
        let (due, map) = runner::ready(&self.job, &self.model_core, &self.model_runner);
        let (core, runner) = (self.core.words(), self.runner.words());
        let lent = self.map.lend().try_into().expect("six words");
        let given = (self.library.ready)(&self.job, core, runner, lent);
        let words = self.map.words();
        if words != map_words(map) {
            return Err(format!("ready map {words:?}, model {map:?}"));
        }
        self.same("ready", given, due)
    }

    /// The six words that the library wrote last.
    pub fn map(&self) -> Map {
        self.map.words().try_into().expect("six words")
    }

    fn same(&self, call: &str, given: u64, due: Stepped) -> Result<Stepped, String> {
        if given != packed(due) {
            let (status, value) = (given >> 32, given & 0xFFFF_FFFF);
            return Err(format!(
                "{call}: status {status}, value {value}, model {due:?}"
            ));
        }
        if let Some(at) = first_other(self.core.words(), &self.model_core) {
            return Err(format!("{call}: word {at} of the core"));
        }
        if let Some(at) = first_other(self.runner.words(), &self.model_runner) {
            return Err(format!("{call}: word {at} of the runner"));
        }
        if self.core.overrun() || self.runner.overrun() || self.map.overrun() {
            return Err(format!("{call}: words outside those lent changed"));
        }
        Ok(due)
    }
}

/// The first place where two memories of one length differ.
fn first_other(a: &[u32], b: &[u32]) -> Option<usize> {
    if a == b {
        return None;
    }
    a.iter().zip(b).position(|(a, b)| a != b)
}
