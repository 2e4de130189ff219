//! The linked replay against the model's: traces as runs print them, beginnings
//! of them, damaged ones, as many lines as there may be and more; bytes that are
//! no job, and memories of other lengths.
//!
//! `traces SEED` runs all parts. `traces SEED PART ROUND` makes one round of
//! one part again, as the line of a difference names it.

use host::random::Random;
use host::random_traces::{of_a_run, of_many_lines, turned_down, Case};
use host::sample::noise;
use link::replay_pair::{kind, otherwise_by_text, told, ReplayPair};
use link::rounds::{asked, random_of, status, usage, Asked};
use std::collections::BTreeMap;
use std::process::ExitCode;

type Outcome = Result<(), String>;
/// How often each kind of answer came.
type Counts = BTreeMap<&'static str, u64>;

struct Part {
    name: &'static str,
    rounds: u32,
    cases: fn(&mut Random) -> Vec<Case>,
    /// The kinds of answers that have to come, each at least so often.
    due: &'static [(&'static str, u64)],
}

const PARTS: [Part; 3] = [
    Part {
        name: "runs",
        rounds: 5_000,
        cases: of_a_run,
        due: &[
            ("agrees", 10_000),
            ("differs", 5_000),
            ("refused 13", 5_000),
        ],
    },
    Part {
        name: "refused",
        rounds: 1_500,
        cases: turned_down,
        due: &[
            ("refused 1", 1_500),
            ("job refused", 500),
            ("refused 13", 300),
        ],
    },
    Part {
        name: "long",
        rounds: 8,
        cases: of_many_lines,
        due: &[("agrees", 16), ("differs", 8), ("refused 13", 32)],
    },
];

struct State {
    pair: ReplayPair,
    counts: Counts,
    lines: u64,
}

impl State {
    /// Lends words of these numbers: those that the last replay left, or others.
    fn lend(&mut self, r: &mut Random, case: &Case) {
        if self.pair.lengths() != (case.words, case.runner) || r.chance(30) {
            let core = noise(r, case.words as u32);
            self.pair.set(&core, &noise(r, case.runner as u32));
        }
    }

    fn replay(&mut self, r: &mut Random, case: &Case) -> Outcome {
        self.lend(r, case);
        let due = self.pair.replay(&case.job, &case.trace)?;
        *self.counts.entry(kind(due)).or_default() += 1;
        self.lines += case.trace.iter().filter(|byte| **byte == b'\n').count() as u64;
        otherwise_by_text(case, due).map_or(Ok(()), Err)
    }
}

fn make_round(state: &mut State, seed: u64, at: usize, round: u32) -> Outcome {
    let r = &mut random_of(seed, at, round);
    // The words that the round before left are not those of a round by itself.
    state.pair.set(&[], &[]);
    for case in (PARTS[at].cases)(r) {
        state.replay(r, &case).map_err(|what| {
            let (name, case) = (PARTS[at].name, told(&case));
            format!("seed {seed}, part {name}, round {round}: {what}\n  {case}")
        })?;
    }
    Ok(())
}

/// All rounds of a part, in which every kind of answer comes often enough.
fn make_part(state: &mut State, seed: u64, at: usize) -> Outcome {
    let part = &PARTS[at];
    state.counts.clear();
    for round in 0..part.rounds {
        make_round(state, seed, at, round)?;
    }
    println!("{}: {}", part.name, shown(&state.counts));
    let few = |(kind, least): &&(&str, u64)| state.counts.get(kind).unwrap_or(&0) < least;
    match part.due.iter().find(few) {
        Some((kind, least)) => Err(format!(
            "seed {seed}: fewer than {least} traces of {} gave {kind}",
            part.name
        )),
        None => Ok(()),
    }
}

fn shown(counts: &Counts) -> String {
    let each: Vec<String> = counts
        .iter()
        .map(|(kind, times)| format!("{kind}: {times}"))
        .collect();
    each.join(", ")
}

fn run_all(state: &mut State, seed: u64) -> Outcome {
    let mut traces = 0;
    for at in 0..PARTS.len() {
        make_part(state, seed, at)?;
        traces += state.counts.values().sum::<u64>();
    }
    println!("{traces} traces with {} lines, agree", state.lines);
    Ok(())
}

fn main() -> ExitCode {
    let words: Vec<String> = std::env::args().skip(1).collect();
    let Some((seed, wanted)) = asked(&words, &PARTS.map(|part| part.name)) else {
        return usage("traces");
    };
    println!("seed {seed}");
    let mut state = State {
        pair: ReplayPair::new(&[], &[]),
        counts: Counts::new(),
        lines: 0,
    };
    status(match wanted {
        Asked::All => run_all(&mut state, seed),
        Asked::One(at, round) => make_round(&mut state, seed, at, round),
    })
}
