//! The linked simulation against the model's: small jobs and those of jobs/ with
//! every number of workers, random jobs, ones of stages with few rights, long pipelines,
//! ones with few segments or records, and what is refused. Spans of jobs with few steps
//! are compared with the naive ones.
//!
//! `simulations SEED` runs all parts. `simulations SEED PART ROUND` makes one round
//! of one part again, as the line of a difference names it.

use host::asm::assemble;
use host::crowded_jobs::crowded;
use host::damaged_jobs::damaged;
use host::job::Job;
use host::layout::WORDS;
use host::overlap::Plain;
use host::random::Random;
use host::random_jobs::accepted;
use host::random_pipelines::piped;
use host::random_stages::staged;
use host::runner::RUNNER;
use host::sample::{any_word, noise};
use host::simulate::{Simulated, WORKING};
use host::span_jobs;
use host::timed_jobs;
use link::rounds::{asked, random_of, status, usage, Asked};
use link::simulation_pair::{kind, told, SimulationPair};
use std::collections::BTreeMap;
use std::process::ExitCode;

type Outcome = Result<(), String>;
type Counts = BTreeMap<String, u64>;

/// The most workers that are tried, one too many.
const WORKERS: u32 = 17;
/// Steps of the plain run of a random job; one in so many longer ones is simulated
/// all the same, most of them up to 65,535 effects.
const MOST_STEPS: u64 = 2_000;
const LONG: u32 = 40;
/// Spans that have to be compared with the naive ones.
const LEAST_NAIVE: u64 = 5_000;

struct Part {
    name: &'static str,
    rounds: u32,
    round: fn(&mut State, &mut Random, u32) -> Outcome,
    /// Kinds of answers, with how often each has to come at least.
    due: &'static [(&'static str, u64)],
}

const PARTS: [Part; 7] = [
    Part {
        name: "small",
        rounds: WORKERS + 1,
        round: small,
        due: &[
            ("ended", 400),
            ("spent", 30),
            ("stopped 8", 15),
            ("stopped 9", 15),
            ("refused 14", 20),
        ],
    },
    Part {
        name: "files",
        rounds: WORKERS + 1,
        round: files,
        due: &[("ended", 100), ("refused 14", 10)],
    },
    Part {
        name: "random",
        rounds: 8_000,
        round: random,
        due: &[("ended", 5_000), ("spent", 3)],
    },
    Part {
        name: "stages",
        rounds: 3_000,
        round: stages,
        due: &[("ended", 2_500)],
    },
    Part {
        name: "pipelines",
        rounds: 150,
        round: pipelines,
        due: &[("ended", 80), ("stopped 9", 3)],
    },
    Part {
        name: "crowded",
        rounds: 1_500,
        round: crowds,
        due: &[("ended", 400), ("stopped 8", 30), ("stopped 9", 100)],
    },
    Part {
        name: "refused",
        rounds: 2_000,
        round: refused,
        due: &[
            ("refused 1", 400),
            ("refused 10", 50),
            ("refused 11", 50),
            ("refused 12", 50),
            ("refused 14", 100),
        ],
    },
];

struct State {
    pair: SimulationPair,
    counts: Counts,
    /// The bytes of the jobs in jobs/.
    files: Vec<Vec<u8>>,
}

impl State {
    fn simulate(&mut self, job: &[u8], workers: u32) -> Result<Simulated, String> {
        let given = self.pair.simulate(job, workers);
        let given = given.map_err(|what| format!("{what}\n  {}", told(job, workers)))?;
        *self.counts.entry(kind(given)).or_default() += 1;
        Ok(given)
    }

    /// Lends words of these numbers: those that the last simulation left, or others.
    fn lend(&mut self, r: &mut Random, lengths: [usize; 3]) {
        if self.pair.lengths() != lengths || r.chance(30) {
            self.pair.set(lengths.map(|length| any_words(r, length)));
        }
    }
}

const LENGTHS: [usize; 3] = [WORDS, RUNNER, WORKING];

/// Any words; of more than the core has, the others are all the same.
fn any_words(r: &mut Random, length: usize) -> Vec<u32> {
    let mut words = vec![any_word(r); length];
    let first = noise(r, length.min(WORDS) as u32);
    words[..first.len()].copy_from_slice(&first);
    words
}

/// The small jobs, with as many workers as the number of the round.
fn small(state: &mut State, r: &mut Random, round: u32) -> Outcome {
    let spans = span_jobs::all()
        .into_iter()
        .chain([span_jobs::five_thousand()]);
    for job in timed_jobs::all().into_iter().chain(spans) {
        state.lend(r, LENGTHS);
        state.simulate(&job.job, round)?;
    }
    Ok(())
}

fn files(state: &mut State, r: &mut Random, round: u32) -> Outcome {
    for job in state.files.clone() {
        state.lend(r, LENGTHS);
        state.simulate(&job, round)?;
    }
    Ok(())
}

/// A job of at most so many steps, or now and then a longer one.
fn short(r: &mut Random, job: &[u8]) -> bool {
    let plain = Plain::run(&Job::read(job).expect("a job"), MOST_STEPS);
    plain.is_some() || r.below(LONG) == 0
}

fn some_workers(r: &mut Random) -> u32 {
    match r.below(3) {
        0 => r.within(1, 3),
        _ => r.within(1, 16),
    }
}

fn random(state: &mut State, r: &mut Random, _: u32) -> Outcome {
    let job = accepted(r);
    if short(r, &job) {
        state.lend(r, LENGTHS);
        state.simulate(&job, some_workers(r))?;
    }
    Ok(())
}

fn stages(state: &mut State, r: &mut Random, _: u32) -> Outcome {
    let job = staged(r);
    if short(r, &job) {
        state.lend(r, LENGTHS);
        state.simulate(&job, some_workers(r))?;
    }
    Ok(())
}

fn pipelines(state: &mut State, r: &mut Random, _: u32) -> Outcome {
    let steps = r.within(3_000, 65_000);
    let job = piped(r, steps);
    state.lend(r, LENGTHS);
    state.simulate(&job, some_workers(r)).map(|_| ())
}

fn crowds(state: &mut State, r: &mut Random, _: u32) -> Outcome {
    let job = crowded(r);
    if short(r, &job) {
        state.lend(r, LENGTHS);
        state.simulate(&job, some_workers(r))?;
    }
    Ok(())
}

/// Bytes that are no job, workers out of range, words of other numbers: none of
/// these, one, or more.
fn refused(state: &mut State, r: &mut Random, _: u32) -> Outcome {
    let mut job = timed_jobs::all()[0].job.clone();
    if r.chance(50) {
        let other = accepted(r);
        job = damaged(r, &other);
        // Some of them pass the test, and may be long.
        if Job::read(&job).is_ok_and(|read| Plain::run(&read, MOST_STEPS).is_none()) {
            return Ok(());
        }
    }
    let workers = match r.below(4) {
        0 => r.pick(&[0, 17]),
        1 => any_word(r),
        _ => some_workers(r),
    };
    let mut lengths = LENGTHS;
    if r.chance(40) {
        let at = r.below(3) as usize;
        let due = lengths[at];
        lengths[at] = r.pick(&[due - 1, due + 1, 0, 1, 2 * due]);
    }
    state.lend(r, lengths);
    state.simulate(&job, workers).map(|_| ())
}

fn make_round(state: &mut State, seed: u64, at: usize, round: u32) -> Outcome {
    let r = &mut random_of(seed, at, round);
    // The words that the round before left are not those of a round by itself.
    state.pair.set(Default::default());
    (PARTS[at].round)(state, r, round).map_err(|what| {
        let name = PARTS[at].name;
        format!("seed {seed}, part {name}, round {round}: {what}")
    })
}

/// All rounds of a part, in which every kind of answer comes often enough.
fn make_part(state: &mut State, seed: u64, at: usize) -> Outcome {
    let part = &PARTS[at];
    state.counts.clear();
    for round in 0..part.rounds {
        make_round(state, seed, at, round)?;
    }
    println!("{}: {}", part.name, shown(&state.counts));
    let few = |(kind, least): &&(&str, u64)| state.counts.get(*kind).unwrap_or(&0) < least;
    match part.due.iter().find(few) {
        Some((kind, least)) => Err(format!(
            "seed {seed}: fewer than {least} simulations of {} gave {kind}",
            part.name
        )),
        None => Ok(()),
    }
}

fn shown(counts: &Counts) -> String {
    let each = counts
        .iter()
        .map(|(kind, times)| format!("{kind}: {times}"));
    each.collect::<Vec<String>>().join(", ")
}

fn run_all(state: &mut State, seed: u64) -> Outcome {
    let mut simulations = 0;
    for at in 0..PARTS.len() {
        make_part(state, seed, at)?;
        simulations += state.counts.values().sum::<u64>();
    }
    let naive = state.pair.naive;
    println!("{simulations} simulations agree; {naive} spans are the naive ones");
    match naive >= LEAST_NAIVE {
        true => Ok(()),
        false => Err(format!("fewer than {LEAST_NAIVE} spans were compared so")),
    }
}

/// The jobs in jobs/, by name.
fn jobs() -> Result<Vec<Vec<u8>>, String> {
    let folder = concat!(env!("CARGO_MANIFEST_DIR"), "/../../jobs");
    let told = |what: std::io::Error| format!("{folder}: {what}");
    let entries = std::fs::read_dir(folder).map_err(told)?;
    let mut names: Vec<_> = entries.flatten().map(|entry| entry.path()).collect();
    names.retain(|name| name.extension().is_some_and(|end| end == "txt"));
    names.sort();
    let job = |name| {
        let text = std::fs::read_to_string(name).map_err(told)?;
        assemble(&text).map_err(|fault| fault.to_string())
    };
    names.iter().map(job).collect()
}

fn main() -> ExitCode {
    let words: Vec<String> = std::env::args().skip(1).collect();
    let Some((seed, wanted)) = asked(&words, &PARTS.map(|part| part.name)) else {
        return usage("simulations");
    };
    println!("seed {seed}");
    let files = match jobs() {
        Ok(files) => files,
        Err(what) => return status(Err(what)),
    };
    let mut state = State {
        pair: SimulationPair::new(Default::default()),
        counts: Counts::new(),
        files,
    };
    status(match wanted {
        Asked::All => run_all(&mut state, seed),
        Asked::One(at, round) => make_round(&mut state, seed, at, round),
    })
}
