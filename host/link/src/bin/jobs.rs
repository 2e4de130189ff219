//! The linked job test and serial runner against the model's.
//!
//! `jobs SEED` runs all parts. `jobs SEED PART ROUND` makes one round of one
//! part again, as the line of a difference names it.

use host::damaged_jobs::damaged;
use host::random::Random;
use host::random_jobs::accepted;
use host::sample::noise;
use host::serial::End;
use link::linked_jobs::{ANSWERS, WORKING};
use link::rounds::{asked, random_of, status, usage, Asked};
use link::serial_pair::{test, Due, SerialPair};
use std::collections::BTreeMap;
use std::process::ExitCode;

type Outcome = Result<(), String>;

struct Part {
    name: &'static str,
    rounds: u32,
    /// Makes one round.
    round: fn(&mut State, &mut Random) -> Outcome,
    /// What has to come at least once.
    reached: &'static [&'static str],
}

const ENDS: [&str; 5] = ["ended", "spent", "refused 8", "refused 9", "refused 12"];
/// The answers of each operation.
const REPLIES: [(u8, &str); 14] = [
    (0, "finished"),
    (1, "pushed"),
    (2, "pushed"),
    (3, "took"),
    (3, "empty"),
    (4, "empty"),
    (4, "not"),
    (5, "moved"),
    (6, "moved"),
    (7, "moved"),
    (8, "spawned"),
    (9, "moved"),
    (10, "took"),
    (10, "empty"),
];

const PARTS: [Part; 3] = [
    Part {
        name: "tests",
        rounds: 30_000,
        round: tests,
        reached: &["test 0", "test 10", "test 11", "test 12"],
    },
    Part {
        name: "runs",
        rounds: 21_000,
        round: runs,
        reached: &ENDS,
    },
    Part {
        name: "lengths",
        rounds: 400,
        round: lengths,
        reached: &["refused 1"],
    },
];

/// The words lent from run to run, and how often each outcome came.
struct State {
    pair: SerialPair,
    counts: BTreeMap<String, u64>,
    /// How often each operation got each answer.
    replies: BTreeMap<(u8, &'static str), u64>,
    /// Jobs handed to the test, and to the runner.
    jobs: u64,
}

impl State {
    fn count(&mut self, what: String) {
        *self.counts.entry(what).or_default() += 1;
        self.jobs += 1;
    }

    fn test(&mut self, job: &[u8]) -> Outcome {
        let status = test(job)?;
        self.count(format!("test {status}"));
        Ok(())
    }

    fn run(&mut self, job: &[u8]) -> Outcome {
        let due = self.pair.run(job)?;
        if let Ok(run) = &due {
            for event in &run.events {
                let reply = (event.operation, event.reply.word());
                *self.replies.entry(reply).or_default() += 1;
            }
        }
        self.count(name(&due));
        Ok(())
    }
}

fn name(due: &Due) -> String {
    match due {
        Ok(run) => match run.end {
            End::Ended => "ended".to_string(),
            End::Spent => "spent".to_string(),
            End::Refused(number) => format!("refused {number}"),
        },
        Err(number) => format!("refused {number}"),
    }
}

/// A job, ten damaged copies of it and two that are damaged again and again.
fn tests(state: &mut State, r: &mut Random) -> Outcome {
    let job = accepted(r);
    state.test(&job)?;
    for _ in 0..10 {
        state.test(&damaged(r, &job))?;
    }
    let mut worn = job;
    for _ in 0..2 {
        worn = damaged(r, &worn);
        if worn.is_empty() {
            break;
        }
        state.test(&worn)?;
    }
    Ok(())
}

/// A job that passes the test; now and then a damaged one.
fn runs(state: &mut State, r: &mut Random) -> Outcome {
    let job = accepted(r);
    if r.chance(4) {
        state.run(&damaged(r, &job))?;
    }
    state.run(&job)
}

/// Words of other numbers than the runner needs.
fn lengths(state: &mut State, r: &mut Random) -> Outcome {
    let near = |r: &mut Random, due: usize| {
        let due = due as u32;
        r.pick(&[due, due, due - 1, due + 1, 0, 1, 2 * due])
    };
    let (working, answers) = (near(r, WORKING), near(r, ANSWERS));
    let held = std::mem::replace(
        &mut state.pair,
        SerialPair::new(&noise(r, working), &noise(r, answers)),
    );
    let job = accepted(r);
    state.run(&job)?;
    state.run(&damaged(r, &job))?;
    state.pair = held;
    Ok(())
}

fn make_round(state: &mut State, seed: u64, at: usize, round: u32) -> Outcome {
    let before = state.jobs;
    let outcome = (PARTS[at].round)(state, &mut random_of(seed, at, round));
    outcome.map_err(|what| {
        let (name, job) = (PARTS[at].name, state.jobs - before + 1);
        format!("seed {seed}, part {name}, round {round}, job {job}: {what}")
    })
}

fn run_all(state: &mut State, seed: u64) -> Outcome {
    for (at, part) in PARTS.iter().enumerate() {
        let before = state.jobs;
        for round in 0..part.rounds {
            make_round(state, seed, at, round)?;
        }
        println!("{}: {} jobs", part.name, state.jobs - before);
        let missing = part
            .reached
            .iter()
            .find(|what| !state.counts.contains_key(**what));
        if let Some(what) = missing {
            return Err(format!("seed {seed}: no job of {} gave {what}", part.name));
        }
    }
    let missing = |reply: &&(u8, &str)| !state.replies.contains_key(*reply);
    match REPLIES.iter().find(missing) {
        Some((operation, word)) => Err(format!(
            "seed {seed}: no step of operation {operation} was answered {word}"
        )),
        None => Ok(()),
    }
}

fn report(state: &State) {
    let counts: Vec<String> = state
        .counts
        .iter()
        .map(|(what, times)| format!("{what}: {times}"))
        .collect();
    println!("{}", counts.join(", "));
    let replies: Vec<String> = state
        .replies
        .iter()
        .map(|((operation, word), times)| format!("{operation} {word}: {times}"))
        .collect();
    println!("{}", replies.join(", "));
    let steps: u64 = state.replies.values().sum();
    println!("{} jobs and {steps} steps, agree", state.jobs);
}

fn main() -> ExitCode {
    let words: Vec<String> = std::env::args().skip(1).collect();
    let Some((seed, wanted)) = asked(&words, &PARTS.map(|part| part.name)) else {
        return usage("jobs");
    };
    println!("seed {seed}");
    let r = &mut random_of(seed, PARTS.len(), 0);
    let mut state = State {
        pair: SerialPair::new(&noise(r, WORKING as u32), &noise(r, ANSWERS as u32)),
        counts: BTreeMap::new(),
        replies: BTreeMap::new(),
        jobs: 0,
    };
    let outcome = match wanted {
        Asked::All => run_all(&mut state, seed),
        Asked::One(at, round) => make_round(&mut state, seed, at, round),
    };
    if outcome.is_ok() {
        report(&state);
    }
    status(outcome)
}
