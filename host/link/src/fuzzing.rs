//! Rounds of the fuzzer: from a ground that was reached, mutated ones, and on
//! each one every call of core and runner, made on the library and on the model.

use crate::counts::{Counts, KINDS};
use crate::ground::{unfinished, Ground};
use crate::pair::Pair;
use crate::runner_pair::RunnerPair;
use crate::shrink::{changes, shortened, shrunk, Change};
use host::call::Call;
use host::fast;
use host::layout::TASKS;
use host::operations::TAKE_OR_GO;
use host::random::Random;
use host::runner::{Stepped, RUNNER};
use host::sample::{any_word, call_of, likely_call, CALL_KINDS};
use std::collections::BTreeMap;
use std::fmt;

/// Grounds of a round; the first is not mutated.
const GROUNDS: u32 = 13;
/// Likely calls of each kind, on a core's memory that fails and that passes.
const LIKELY: [u32; 2] = [1, 4];
/// The answer of a call of the runner that moved without a value.
const DONE: u32 = 44;

/// A step of operation 10 that waits or moves is a kind of its own.
pub const RUNNER_KINDS: [&str; 4] = ["open", "step", "step of operation 10", "ready"];
/// The answers that each of these has to get.
const REACHED: [&[u32]; 4] = [
    &[1, 10, 11, 12, DONE],
    &[1, 2, 4, 8, 9, 10, 11, 12, 32, 33, 34, 40, 41, 42, 43, DONE],
    &[32, 33, 42],
    &[1, 2, 10, 11, 12, DONE],
];

/// A call of the core or of the runner.
#[derive(Clone, Debug, PartialEq, Eq)]
pub enum Made {
    Core(Call),
    Open,
    Step(u32),
    Ready,
}

impl fmt::Display for Made {
    fn fmt(&self, f: &mut fmt::Formatter) -> fmt::Result {
        match self {
            Made::Core(call) => write!(f, "{call}"),
            Made::Open => write!(f, "open of the job"),
            Made::Step(task) => write!(f, "step(task {task})"),
            Made::Ready => write!(f, "ready map"),
        }
    }
}

/// Every call of core and runner, each with likely and with any arguments.
pub fn calls(r: &mut Random, ground: &Ground) -> Vec<Made> {
    let passes = fast::hold(&ground.core);
    let likely = LIKELY[usize::from(passes)];
    let mut list = vec![Made::Ready, Made::Open];
    let tasks = unfinished(&ground.core);
    for _ in 0..2 * likely {
        let any = r.below(TASKS + 2);
        let near = if tasks.is_empty() {
            any
        } else {
            r.pick(&tasks)
        };
        list.push(Made::Step(r.pick(&[near, near, near, near, any])));
    }
    list.push(Made::Step(any_word(r)));
    for kind in 0..CALL_KINDS {
        let times = if kind == 0 { 1 } else { likely };
        for _ in 0..times {
            list.push(Made::Core(likely_call(r, &ground.core, kind)));
        }
        let (a, b) = (any_word(r), any_word(r));
        list.push(Made::Core(call_of(r, kind, a, b)));
    }
    list
}

/// How often the runner's calls got each number.
#[derive(Default)]
pub struct RunnerCounts(BTreeMap<(usize, u32), u64>);

impl RunnerCounts {
    fn missing(&self) -> Option<String> {
        let due = REACHED.iter().enumerate();
        let mut cases = due.flat_map(|(kind, numbers)| numbers.iter().map(move |n| (kind, *n)));
        let case = cases.find(|case| !self.0.contains_key(case));
        case.map(|(kind, number)| format!("{} of the runner {number}", RUNNER_KINDS[kind]))
    }

    fn by_kind(&self) -> [u64; RUNNER_KINDS.len()] {
        [0, 1, 2, 3].map(|kind| self.of(kind).map(|(_, times)| times).sum())
    }

    /// The numbers that calls of this kind got, and how often.
    fn of(&self, kind: usize) -> impl Iterator<Item = (u32, u64)> + '_ {
        let cases = self.0.range((kind, 0)..(kind + 1, 0));
        cases.map(|((_, number), times)| (*number, *times))
    }
}

impl fmt::Display for RunnerCounts {
    fn fmt(&self, f: &mut fmt::Formatter) -> fmt::Result {
        for (kind, name) in RUNNER_KINDS.iter().enumerate() {
            write!(f, "{}{name}", if kind == 0 { "" } else { "; " })?;
            for (number, times) in self.of(kind) {
                write!(f, " {number}: {times}")?;
            }
        }
        Ok(())
    }
}

/// A call that differs, on the fewest words on which it does.
#[derive(Debug, PartialEq, Eq)]
pub struct Failure {
    /// The number of the ground in its round; 0 is as reached.
    pub number: u64,
    pub call: Made,
    /// The words in which the ground differs from the one reached.
    pub changes: Vec<Change>,
    /// Words of the core and of the runner.
    pub lengths: (usize, usize),
    pub what: String,
}

impl Failure {
    fn within_round(mut self: Box<Self>, before: u64) -> Box<Self> {
        self.number -= before;
        self
    }
}

impl fmt::Display for Failure {
    fn fmt(&self, f: &mut fmt::Formatter) -> fmt::Result {
        let (core, runner) = self.lengths;
        let (number, changed) = (self.number, self.changes.len());
        write!(f, "memory {number}: {}", self.call)?;
        write!(
            f,
            "\n  on {core} words of the core and {runner} of the runner"
        )?;
        write!(f, ", {changed} of them changed from those reached:")?;
        for change in &self.changes {
            write!(f, "\n  {change}")?;
        }
        write!(f, "\n{}", self.what)
    }
}

/// Whether the core's memory passes, or a call that differs.
type Tried = Result<bool, Box<Failure>>;

/// The library and the model on one ground, and what came out so far.
pub struct Fuzzer {
    pub core: Pair,
    pub runner: RunnerPair,
    pub runner_counts: RunnerCounts,
    pub grounds: u64,
    /// Grounds whose core's memory passes, and of these the runner's too.
    pub passed: u64,
    pub passed_both: u64,
}

impl Default for Fuzzer {
    fn default() -> Fuzzer {
        Fuzzer {
            core: Pair::default(),
            runner: RunnerPair::new(Vec::new(), &[], &[]),
            runner_counts: RunnerCounts::default(),
            grounds: 0,
            passed: 0,
            passed_both: 0,
        }
    }
}

impl Fuzzer {
    pub fn calls(&self) -> u64 {
        self.core.counts.calls + self.runner_counts.by_kind().iter().sum::<u64>()
    }

    /// The first answer that no call got.
    pub fn missing(&self) -> Option<String> {
        self.core.counts.missing().or(self.runner_counts.missing())
    }

    fn set_core(&mut self, ground: &Ground) {
        self.core.set(&ground.core);
    }

    fn set_runner(&mut self, ground: &Ground) {
        self.runner.job.clone_from(&ground.job);
        self.runner.model_core.clone_from(&ground.core);
        self.runner.model_runner.clone_from(&ground.runner);
        self.runner.changed();
    }

    pub fn set(&mut self, ground: &Ground) {
        self.set_core(ground);
        self.set_runner(ground);
    }

    /// Makes the call on this ground, which is set before and again afterwards.
    /// The number of the answer, or what differs.
    pub fn make(&mut self, ground: &Ground, call: &Made) -> Result<u32, String> {
        let Made::Core(call) = call else {
            return self.make_runner(ground, call);
        };
        let answer = self.core.make(call)?;
        if self.core.model != ground.core {
            if !answer.moved() {
                return Err(format!("{call}: {answer:?}, and words changed"));
            }
            self.set_core(ground);
        }
        Ok(answer.number())
    }

    /// The kind of the step, and its answer.
    fn step(&mut self, task: u32) -> Result<(usize, Stepped), String> {
        let operation = self.runner.operation(task);
        let answer = self.runner.step(task)?;
        let tested = answer == Stepped::Waits || answer.moved();
        let tenth = tested && operation == Some(TAKE_OR_GO);
        Ok((if tenth { 2 } else { 1 }, answer))
    }

    fn make_runner(&mut self, ground: &Ground, call: &Made) -> Result<u32, String> {
        let (kind, answer) = match call {
            Made::Open => (0, self.runner.open()?),
            Made::Step(task) => self.step(*task)?,
            _ => (3, self.runner.ready()?),
        };
        let case = (kind, answer.status());
        *self.runner_counts.0.entry(case).or_default() += 1;
        if self.runner.model_core != ground.core || self.runner.model_runner != ground.runner {
            if !answer.moved() || *call == Made::Ready {
                return Err(format!("{call}: {answer:?}, and words changed"));
            }
            self.set_runner(ground);
        }
        Ok(answer.status())
    }

    /// Every call on this ground. Does its core's memory pass?
    fn every_call(&mut self, r: &mut Random, from: &Ground, ground: &Ground) -> Tried {
        self.set(ground);
        for call in calls(r, ground) {
            let Ok(number) = self.make(ground, &call) else {
                return Err(self.failure(from, ground, call));
            };
            self.passed_both += u64::from(call == Made::Ready && number == DONE);
        }
        let passes = fast::hold(&ground.core);
        self.grounds += 1;
        self.passed += u64::from(passes);
        Ok(passes)
    }

    /// What differs in one call on this ground.
    fn difference(&mut self, ground: &Ground, call: &Made) -> Option<String> {
        self.set(ground);
        self.make(ground, call).err()
    }

    fn failure(&mut self, from: &Ground, ground: &Ground, call: Made) -> Box<Failure> {
        let differs = |call: &Made| self.difference(ground, call).is_some();
        let call = shortened(call, differs);
        let differs = |ground: &Ground| self.difference(ground, &call).is_some();
        let least = shrunk(from, ground, differs);
        Box::new(Failure {
            number: self.grounds,
            what: self.difference(&least, &call).unwrap_or_default(),
            call,
            changes: changes(from, &least),
            lengths: (least.core.len(), least.runner.len()),
        })
    }

    /// A ground, then mutated ones, each made from the last that was kept.
    pub fn round(&mut self, r: &mut Random) -> Result<(), Box<Failure>> {
        let before = self.grounds;
        let from = Ground::reached(r);
        let mut ground = from.clone();
        let mut kept = from.clone();
        for _ in 0..GROUNDS {
            let passes = self.every_call(r, &from, &ground);
            let passes = passes.map_err(|failure| failure.within_round(before))?;
            if passes && ground.runner.len() == RUNNER && r.chance(50) {
                kept = ground;
            }
            if r.chance(15) {
                kept.lead_on(r);
            }
            ground = kept.mutated(r);
        }
        Ok(())
    }

    /// How many calls of each kind, and the answers by number.
    pub fn report(&self) -> String {
        let core: &Counts = &self.core.counts;
        let kinds = |names: &[&str], sums: &[u64]| {
            let each = names.iter().zip(sums);
            let each: Vec<String> = each
                .map(|(name, times)| format!("{name} {times}"))
                .collect();
            each.join(", ")
        };
        let of_core = kinds(&KINDS, &core.by_kind());
        let of_runner = kinds(&RUNNER_KINDS, &self.runner_counts.by_kind());
        format!(
            "calls of the core: {of_core}\ncalls of the runner: {of_runner}\n\
             answers of the core by number: {core}\nanswers of the runner by number: {}\n\
             {} memories, {} passed the rules of the core, {} those of the runner too",
            self.runner_counts, self.grounds, self.passed, self.passed_both
        )
    }
}
