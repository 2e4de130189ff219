//! The linked simulation beside the model's: the answers, ticks, work and span, the
//! words lent that mean something and those around the lent ones are compared. Where
//! the job has few steps the span is compared with the naive one too, and the ticks are
//! within what work and span allow.

use crate::guarded::Guarded;
use crate::linked_simulation::{self, packed};
use host::job::Job;
use host::simulate::{self, Simulated, ENDS, OURS};
use host::span::{bounded, Run};

/// How the library simulates a job.
pub type Library = fn(&[u8], u32, [&mut [u32]; 3], &mut [u64; 3]) -> u64;

/// The names of the memories lent.
const NAMES: [&str; 3] = ["the core", "the runner", "those for working"];
/// What stands in the places for ticks, work and span before the call.
const UNSET: [u64; 3] = [0x0123_4567_89AB_CDEF; 3];
/// Steps of the jobs whose span is worked out naively.
const NAIVE_STEPS: usize = 2_000;

/// What the library is lent, and the model. The words stay from one simulation to
/// the next until others are set, so that one finds what the last left.
pub struct SimulationPair {
    /// The linked library; a test puts one that errs in its place.
    pub library: Library,
    lent: [Guarded; 3],
    model: [Vec<u32>; 3],
    /// How many spans were the naive ones.
    pub naive: u64,
}

impl SimulationPair {
    pub fn new(words: [Vec<u32>; 3]) -> SimulationPair {
        SimulationPair {
            library: linked_simulation::simulate,
            lent: words.each_ref().map(|words| Guarded::new(words)),
            model: words,
            naive: 0,
        }
    }

    /// Other words to lend.
    pub fn set(&mut self, words: [Vec<u32>; 3]) {
        for (lent, words) in self.lent.iter_mut().zip(&words) {
            lent.set(words);
        }
        self.model = words;
    }

    /// How many words are lent.
    pub fn lengths(&self) -> [usize; 3] {
        self.model.each_ref().map(Vec::len)
    }

    /// Simulates the job on both; says what differs.
    pub fn simulate(&mut self, job: &[u8], workers: u32) -> Result<Simulated, String> {
        let due = self.modelled(job, workers)?;
        let mut out = Guarded::new(&UNSET);
        let places = out.lend().try_into().expect("three places");
        let lent = self.lent.each_mut().map(Guarded::lend);
        let given = (self.library)(job, workers, lent, places);
        if given != packed(due) || out.words() != due.out() {
            let (status, value) = (given >> 32, given & 0xFFFF_FFFF);
            let [ticks, work, span] = [0, 1, 2].map(|at| out.words()[at]);
            return Err(format!(
                "status {status}, value {value}, ticks {ticks}, work {work}, span {span}, model {due:?}"
            ));
        }
        self.same_words()?;
        if out.overrun() || self.lent.iter().any(Guarded::overrun) {
            return Err("words outside those lent changed".to_string());
        }
        self.spanned(job, workers, due)?;
        Ok(due)
    }

    /// The model's answer; a refusal leaves the words that are compared.
    fn modelled(&mut self, job: &[u8], workers: u32) -> Result<Simulated, String> {
        let before = compared(self.model.each_ref().map(|words| &words[..])).map(<[u32]>::to_vec);
        let [m, r, working] = &mut self.model;
        let due = simulate::simulate(job, workers, &OURS, m, r, working);
        let after = compared(self.model.each_ref().map(|words| &words[..]));
        if matches!(due, Simulated::Refused(_)) && after != before.each_ref().map(|b| &b[..]) {
            return Err(format!("the model: {due:?}, and words lent changed"));
        }
        Ok(due)
    }

    /// The span is the naive one, and the ticks are within the bounds.
    fn spanned(&mut self, job: &[u8], workers: u32, given: Simulated) -> Result<(), String> {
        let Simulated::Ended { ticks, work, span } = given else {
            return Ok(());
        };
        if !bounded(workers, ticks, work, span) {
            return Err(format!("{given:?} is not within the bounds"));
        }
        let job = Job::read(job).map_err(|refusal| format!("{refusal:?}"))?;
        let Some(run) = Run::of(&job, NAIVE_STEPS) else {
            return Ok(());
        };
        self.naive += 1;
        match run.span(&OURS) {
            naive if naive == span => Ok(()),
            naive => Err(format!("{given:?}, span {naive} naively")),
        }
    }

    fn same_words(&self) -> Result<(), String> {
        let given = compared(self.lent.each_ref().map(Guarded::words));
        let due = compared(self.model.each_ref().map(|words| &words[..]));
        for ((lent, model), name) in given.into_iter().zip(due).zip(NAMES) {
            if lent == model {
                continue;
            }
            let mut pairs = lent.iter().zip(model);
            let at = pairs.position(|(a, b)| a != b).unwrap_or(0);
            let (given, due) = (lent[at], model[at]);
            return Err(format!("word {at} of {name} is {given}, model {due}"));
        }
        Ok(())
    }
}

/// The words that mean something: all of the core and the runner, and the ends.
fn compared([core, runner, working]: [&[u32]; 3]) -> [&[u32]; 3] {
    [core, runner, &working[..ENDS.min(working.len())]]
}

/// The case in words, to be made again.
pub fn told(job: &[u8], workers: u32) -> String {
    let job: String = job.iter().map(|byte| format!("{byte:02x}")).collect();
    format!("{workers} workers, job {job}")
}

/// The kind of an answer, for counting.
pub fn kind(simulated: Simulated) -> String {
    match simulated {
        Simulated::Ended { .. } => "ended".to_string(),
        Simulated::Spent => "spent".to_string(),
        Simulated::Stopped(number) => format!("stopped {number}"),
        Simulated::Refused(number) => format!("refused {number}"),
    }
}
