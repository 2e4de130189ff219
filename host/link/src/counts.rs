//! How often each kind of call got each answer.

use host::answer::Answer;
use host::call::Call;
use std::collections::BTreeMap;
use std::fmt;

/// The kinds of calls; a push of a run of one, of none and of several, and a take
/// whose value stays queued.
pub const KINDS: [&str; 10] = [
    "open",
    "spawn",
    "push",
    "push of none",
    "push of several",
    "take",
    "kept take",
    "sync",
    "finish",
    "left",
];

/// The answers that each kind of call can get, `KINDS` in order.
const REACHED: [&[u32]; 10] = [
    &[0, 1, 3],
    &[0, 1, 2, 4, 6, 8, 32],
    &[0, 1, 2, 4, 5, 6, 9, 32],
    &[0, 1, 2, 4, 5, 6, 32],
    &[0, 1, 2, 4, 5, 6, 9, 32],
    &[0, 1, 2, 4, 5, 6, 32, 33],
    &[0, 1, 2, 4, 5, 6, 32, 33],
    &[0, 1, 2, 4, 32],
    &[0, 1, 2, 4, 32],
    &[0, 1, 2, 5, 7, 32],
];

/// The kinds of calls that can get 2 on memory that passes.
const LATE: [usize; 4] = [2, 4, 7, 8];

/// A kind of call, the number of its answer, and whether the 2 was a late one.
type Case = (usize, u32, bool);

#[derive(Default)]
pub struct Counts {
    cases: BTreeMap<Case, u64>,
    pub calls: u64,
}

pub fn kind(call: &Call) -> usize {
    match call {
        Call::Open { .. } => 0,
        Call::Spawn { .. } => 1,
        Call::Push { values, .. } => match values.len() {
            1 => 2,
            0 => 3,
            _ => 4,
        },
        Call::Take { keep: false, .. } => 5,
        Call::Take { keep: true, .. } => 6,
        Call::Sync { .. } => 7,
        Call::Finish { .. } => 8,
        Call::Left { .. } => 9,
    }
}

impl Counts {
    pub fn add(&mut self, call: &Call, answer: Answer, late: bool) {
        let case = (kind(call), answer.number(), late);
        *self.cases.entry(case).or_default() += 1;
        self.calls += 1;
    }

    /// How many calls of each kind there were, `KINDS` in order.
    pub fn by_kind(&self) -> [u64; KINDS.len()] {
        let mut sums = [0; KINDS.len()];
        for ((kind, _, _), times) in &self.cases {
            sums[*kind] += times;
        }
        sums
    }

    /// The first case that no call reached.
    pub fn missing(&self) -> Option<String> {
        let early = REACHED
            .iter()
            .enumerate()
            .flat_map(|(kind, numbers)| numbers.iter().map(move |number| (kind, *number, false)));
        let late = LATE.iter().map(|kind| (*kind, 2, true));
        early
            .chain(late)
            .find(|case| !self.cases.contains_key(case))
            .map(|(kind, number, late)| format!("{} {number}{}", KINDS[kind], mark(late)))
    }
}

fn mark(late: bool) -> &'static str {
    if late {
        " late"
    } else {
        ""
    }
}

impl fmt::Display for Counts {
    fn fmt(&self, f: &mut fmt::Formatter) -> fmt::Result {
        for (at, name) in KINDS.iter().enumerate() {
            write!(f, "{}{name}", if at == 0 { "" } else { "; " })?;
            for ((_, number, late), times) in self.cases.range((at, 0, false)..(at + 1, 0, false)) {
                write!(f, " {number}{}: {times}", mark(*late))?;
            }
        }
        Ok(())
    }
}
