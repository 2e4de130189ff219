//! The linked runner against the model's: random jobs under random orders, step
//! by step and as one list, and steps on damaged memories.
//!
//! `orders SEED` runs all parts. `orders SEED PART ROUND` makes one round of
//! one part again, as the line of a difference names it.

use host::asm::assemble;
use host::crowds::CROWDS;
use host::damage::damage;
use host::damaged_jobs::damaged;
use host::job::Job;
use host::layout::WORDS;
use host::operations::TAKE_OR_GO;
use host::overlap::{Log, Plain};
use host::random::Random;
use host::random_jobs::accepted;
use host::runner::{Stepped, RUNNER};
use host::sample::{any_word, noise};
use link::rounds::{asked, random_of, status, usage, Asked};
use link::runner_pair::RunnerPair;
use std::collections::BTreeMap;
use std::process::ExitCode;

type Outcome = Result<(), String>;

/// Steps of a plain run that is run under other orders.
const MOST_STEPS: u64 = 3_000;
/// Calls of one run: so many times the plain machine's steps, and no more.
const CALLS_A_STEP: u64 = 4;
const MOST_CALLS: u64 = 100;
struct Part {
    name: &'static str,
    rounds: u32,
    round: fn(&mut State, &mut Random) -> Outcome,
}

const PARTS: [Part; 4] = [
    Part {
        name: "orders",
        rounds: 20_000,
        round: orders,
    },
    Part {
        name: "crowd",
        rounds: 10,
        round: crowd,
    },
    Part {
        name: "damaged",
        rounds: 6_000,
        round: damaged_memories,
    },
    Part {
        name: "lengths",
        rounds: 300,
        round: lengths,
    },
];

/// A step of operation 10 that waits or moves.
const TENTH: &str = "step of operation 10";

/// The answers that have to come at least once, call by call.
const DUE: [(&str, &[u32]); 5] = [
    ("open", &[1, 10, 11, 12, 44]),
    (
        "step",
        &[1, 2, 4, 8, 9, 10, 11, 12, 32, 33, 34, 40, 41, 42, 43, 44],
    ),
    (TENTH, &[32, 33, 42]),
    ("run", &[1, 10, 11, 12, 44]),
    ("ready", &[1, 2, 10, 11, 12, 44]),
];

#[derive(Default)]
struct State {
    /// How often each answer came, by call and number.
    counts: BTreeMap<(&'static str, u32), u64>,
    calls: u64,
    /// Runs in which all tasks finished.
    ended: u64,
}

impl State {
    fn count(&mut self, call: &'static str, answer: Stepped) {
        *self.counts.entry((call, answer.status())).or_default() += 1;
        self.calls += 1;
    }

    fn open(&mut self, pair: &mut RunnerPair) -> Outcome {
        self.count("open", pair.open()?);
        Ok(())
    }

    fn step(&mut self, pair: &mut RunnerPair, t: u32) -> Result<Stepped, String> {
        let operation = pair.operation(t);
        let answer = pair.step(t)?;
        let kind = match operation {
            Some(TAKE_OR_GO) if answer == Stepped::Waits || answer.moved() => TENTH,
            _ => "step",
        };
        self.count(kind, answer);
        Ok(answer)
    }

    fn run(
        &mut self,
        pair: &mut RunnerPair,
        tasks: &[u32],
        places: usize,
    ) -> Result<Vec<Stepped>, String> {
        let (answer, answers) = pair.run(tasks, places)?;
        self.count("run", answer);
        Ok(answers)
    }

    fn ready(&mut self, pair: &mut RunnerPair) -> Outcome {
        self.count("ready", pair.ready()?);
        Ok(())
    }
}

/// The task of the next call: mostly one that is unfinished.
fn somebody(r: &mut Random, log: &Log) -> u32 {
    let unfinished = log.unfinished();
    if unfinished.is_empty() || r.chance(3) {
        return r.below(130);
    }
    r.pick(&unfinished)
}

/// The steps that were made one by one, as one list on other words: the same
/// answers.
fn as_a_list(
    state: &mut State,
    r: &mut Random,
    pair: &mut RunnerPair,
    made: &[(u32, Stepped)],
) -> Outcome {
    let (tasks, due): (Vec<u32>, Vec<Stepped>) = made.iter().copied().unzip();
    pair.model_core = noise(r, WORDS as u32);
    pair.model_runner = noise(r, RUNNER as u32);
    pair.changed();
    match state.run(pair, &tasks, tasks.len())? == due {
        true => Ok(()),
        false => Err("a list of steps is answered otherwise than its steps".to_string()),
    }
}

/// A job under a random order, now and then the ready map; and the same calls
/// in one.
fn orders(state: &mut State, r: &mut Random) -> Outcome {
    let job = accepted(r);
    let plain = Plain::run(&Job::read(&job).expect("a job"), MOST_STEPS);
    let steps = plain.as_ref().map_or(MOST_STEPS, |plain| plain.steps);
    let mut pair = RunnerPair::new(job, &noise(r, WORDS as u32), &noise(r, RUNNER as u32));
    state.open(&mut pair)?;
    let (mut log, mut made) = (Log::default(), Vec::new());
    for _ in 0..MOST_CALLS.min(CALLS_A_STEP * steps) {
        let t = somebody(r, &log);
        let answer = state.step(&mut pair, t)?;
        log.note(t, answer);
        made.push((t, answer));
        if r.chance(4) {
            state.ready(&mut pair)?;
        }
        if log.unfinished().is_empty() && r.chance(25) {
            break;
        }
    }
    if log.unfinished().is_empty() {
        state.ended += 1;
    }
    if r.chance(30) {
        as_a_list(state, r, &mut pair, &made)?;
    }
    match plain.and_then(|plain| plain.differs(&log)) {
        Some(what) => Err(what),
        None => Ok(()),
    }
}

/// A job for which records or segments run out; children move now and then.
fn crowd(state: &mut State, r: &mut Random) -> Outcome {
    let job = assemble(r.pick(&CROWDS)).expect("the crowd assembles");
    let mut pair = RunnerPair::new(job, &noise(r, WORDS as u32), &noise(r, RUNNER as u32));
    state.open(&mut pair)?;
    let (calls, own) = (r.within(500, 1_500), r.within(50, 95));
    for _ in 0..calls {
        let t = if r.chance(own) { 0 } else { r.below(128) };
        state.step(&mut pair, t)?;
        if r.chance(2) {
            state.ready(&mut pair)?;
        }
    }
    Ok(())
}

/// Changes words of the core, of the runner, or of the job.
fn damage_one(r: &mut Random, pair: &mut RunnerPair) {
    if r.chance(60) {
        damage(r, &mut pair.model_core);
    } else {
        let at = r.below(RUNNER as u32) as usize;
        pair.model_runner[at] = any_word(r);
    }
    pair.changed();
}

/// A run that is led somewhere, then damaged and stepped.
fn damaged_memories(state: &mut State, r: &mut Random) -> Outcome {
    let whole = accepted(r);
    let other = damaged(r, &whole);
    let job = if r.chance(90) { whole } else { other };
    let mut pair = RunnerPair::new(job, &noise(r, WORDS as u32), &noise(r, RUNNER as u32));
    state.open(&mut pair)?;
    for _ in 0..r.below(30) {
        state.step(&mut pair, r.below(4))?;
    }
    for _ in 0..10 {
        damage_one(r, &mut pair);
        let t = if r.chance(90) {
            r.below(6)
        } else {
            any_word(r)
        };
        state.step(&mut pair, t)?;
        if r.chance(20) {
            state.ready(&mut pair)?;
        }
    }
    Ok(())
}

/// Memories of other lengths.
fn lengths(state: &mut State, r: &mut Random) -> Outcome {
    let near = |r: &mut Random, due: usize| {
        let due = due as u32;
        r.pick(&[due, due, due - 1, due + 1, 0, 1, 2 * due])
    };
    let (core, runner) = (near(r, WORDS), near(r, RUNNER));
    let mut pair = RunnerPair::new(accepted(r), &noise(r, core), &noise(r, runner));
    state.open(&mut pair)?;
    state.step(&mut pair, any_word(r))?;
    state.ready(&mut pair)?;
    let tasks: Vec<u32> = (0..r.below(4)).map(|_| r.below(3)).collect();
    let places = if r.chance(50) {
        tasks.len()
    } else {
        r.below(5) as usize
    };
    state.run(&mut pair, &tasks, places)?;
    pair.job = damaged(r, &pair.job);
    state.run(&mut pair, &tasks, places)?;
    Ok(())
}

fn make_round(state: &mut State, seed: u64, at: usize, round: u32) -> Outcome {
    let outcome = (PARTS[at].round)(state, &mut random_of(seed, at, round));
    outcome.map_err(|what| {
        let name = PARTS[at].name;
        format!("seed {seed}, part {name}, round {round}: {what}")
    })
}

fn run_all(state: &mut State, seed: u64) -> Outcome {
    for (at, part) in PARTS.iter().enumerate() {
        let before = state.calls;
        for round in 0..part.rounds {
            make_round(state, seed, at, round)?;
        }
        println!("{}: {} calls", part.name, state.calls - before);
    }
    for (call, numbers) in DUE {
        let missing = |number: &&u32| !state.counts.contains_key(&(call, **number));
        if let Some(number) = numbers.iter().find(missing) {
            return Err(format!("seed {seed}: no {call} was answered {number}"));
        }
    }
    Ok(())
}

fn main() -> ExitCode {
    let words: Vec<String> = std::env::args().skip(1).collect();
    let Some((seed, wanted)) = asked(&words, &PARTS.map(|part| part.name)) else {
        return usage("orders");
    };
    println!("seed {seed}");
    let mut state = State::default();
    let outcome = match wanted {
        Asked::All => run_all(&mut state, seed),
        Asked::One(at, round) => make_round(&mut state, seed, at, round),
    };
    if outcome.is_ok() {
        let counts: Vec<String> = state
            .counts
            .iter()
            .map(|((call, number), times)| format!("{call} {number}: {times}"))
            .collect();
        println!("answers by number: {}", counts.join(", "));
        println!("{} calls agree, {} runs ended", state.calls, state.ended);
    }
    status(outcome)
}
