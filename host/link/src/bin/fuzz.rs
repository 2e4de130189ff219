//! Damaged memories: every call of core and runner on the linked library and on
//! the model, answer for answer and word for word.
//!
//! `fuzz SEED CALLS` makes at least so many calls. `fuzz SEED round ROUND` makes
//! one round again, as the line of a difference names it.

use link::fuzzing::Fuzzer;
use link::rounds::{random_of, status};
use std::process::ExitCode;

type Outcome = Result<(), String>;

/// A line of progress every so many calls.
const LINE: u64 = 250_000;

fn make_round(fuzzer: &mut Fuzzer, seed: u64, round: u32) -> Outcome {
    let outcome = fuzzer.round(&mut random_of(seed, 0, round));
    outcome.map_err(|what| format!("seed {seed}, round {round}, {what}"))
}

fn run_all(fuzzer: &mut Fuzzer, seed: u64, most: u64) -> Outcome {
    let (mut round, mut shown) = (0, 0);
    while fuzzer.calls() < most {
        make_round(fuzzer, seed, round)?;
        round += 1;
        if fuzzer.calls() / LINE > shown {
            shown = fuzzer.calls() / LINE;
            let (calls, memories) = (fuzzer.calls(), fuzzer.grounds);
            println!("{calls} calls on {memories} memories in {round} rounds");
        }
    }
    match fuzzer.missing() {
        Some(case) => Err(format!("seed {seed}: no call got {case}")),
        None => Ok(()),
    }
}

fn main() -> ExitCode {
    let words: Vec<String> = std::env::args().skip(1).collect();
    let words: Vec<&str> = words.iter().map(String::as_str).collect();
    let number = |word: &str| word.parse::<u64>().ok();
    let mut fuzzer = Fuzzer::default();
    let asked = match words[..] {
        [seed, calls] => number(seed).zip(number(calls)),
        [seed, "round", round] => number(seed).zip(number(round)),
        _ => None,
    };
    let Some((seed, count)) = asked else {
        eprintln!("fuzz SEED CALLS, or fuzz SEED round ROUND");
        return ExitCode::FAILURE;
    };
    println!("seed {seed}");
    let outcome = match words.len() {
        2 => run_all(&mut fuzzer, seed, count),
        _ => make_round(&mut fuzzer, seed, count as u32),
    };
    println!("{}", fuzzer.report());
    if outcome.is_ok() {
        println!("{} calls, agree", fuzzer.calls());
    }
    status(outcome)
}
