//! The model's own runs, which the programs and the library are compared with.
//!
//! `model serial FILE` prints the run of any bytes without overlap;
//! `model overlap FILE TASKS` prints the run of any bytes with overlap, where each byte of the file TASKS makes a step;
//! `model order SEED MOST FILE OUT` writes a random order of at most MOST calls as such a file;
//! `model random SEED OUT` writes a random job.

use host::command::status;
use host::overlap_text;
use host::random::Random;
use host::random_jobs::accepted;
use host::serial;
use std::fs;
use std::process::ExitCode;
use std::str::FromStr;

const USAGE: &str = "model serial FILE
model overlap FILE TASKS
model order SEED MOST FILE OUT
model random SEED OUT";

fn read(file: &str) -> Result<Vec<u8>, String> {
    fs::read(file).map_err(|e| format!("{file}: {e}"))
}

fn write(file: &str, bytes: Vec<u8>) -> Result<(), String> {
    fs::write(file, bytes).map_err(|e| format!("{file}: {e}"))
}

fn serial_run(file: &str) -> Result<(), String> {
    print!("{}", serial::text(&read(file)?));
    Ok(())
}

fn overlap(file: &str, tasks: &str) -> Result<(), String> {
    print!("{}", overlap_text::text(&read(file)?, &read(tasks)?));
    Ok(())
}

fn number<N: FromStr>(word: &str) -> Result<N, String> {
    word.parse().map_err(|_| format!("{word} is no number"))
}

fn order(seed: &str, most: &str, file: &str, out: &str) -> Result<(), String> {
    let mut random = Random::new(number(seed)?);
    write(
        out,
        overlap_text::order(&read(file)?, &mut random, number(most)?),
    )
}

fn random(seed: &str, out: &str) -> Result<(), String> {
    write(out, accepted(&mut Random::new(number(seed)?)))
}

fn main() -> ExitCode {
    let words: Vec<String> = std::env::args().skip(1).collect();
    let words: Vec<&str> = words.iter().map(String::as_str).collect();
    let outcome = match words[..] {
        ["serial", file] => serial_run(file),
        ["overlap", file, tasks] => overlap(file, tasks),
        ["order", seed, most, file, out] => order(seed, most, file, out),
        ["random", seed, out] => random(seed, out),
        _ => Err(USAGE.to_string()),
    };
    status(outcome)
}
