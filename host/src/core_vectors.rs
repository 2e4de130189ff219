//! Vectors of the core: calls with the answers of models that were written apart
//! from this one. The head of the file says how they are written.

use crate::call::Call;
use std::fs;

const CORE_4: &str = concat!(env!("CARGO_MANIFEST_DIR"), "/tests/vectors/core-4.txt");

/// A call and its answer: status and value.
pub type Answered = (Call, (u32, u32));

/// The vectors that hold once request 4 is in: for each core its opening and the
/// calls on it.
pub fn core_4() -> Vec<Vec<Answered>> {
    let text = fs::read_to_string(CORE_4).expect("the file of the vectors");
    let mut cores: Vec<Vec<Answered>> = Vec::new();
    for line in text.lines().filter(|line| !line.starts_with('#')) {
        let words: Vec<&str> = line.split(' ').collect();
        if words[0] == "open" {
            cores.push(vec![(call(&words), (0, 0))]);
            continue;
        }
        let [call_words @ .., "=", status, value] = &words[..] else {
            panic!("no line of a vector: {line}");
        };
        let answered = (call(call_words), (number(status), number(value)));
        cores.last_mut().expect("an opening").push(answered);
    }
    cores
}

fn number(word: &str) -> u32 {
    word.parse().expect("a number")
}

fn call(words: &[&str]) -> Call {
    let argument = |at: usize| number(words[at]);
    match words[0] {
        "open" => Call::Open {
            length: argument(1),
            segments: argument(2),
        },
        "spawn" => Call::Spawn {
            task: argument(1),
            rights: argument(2),
        },
        "push" => Call::push(argument(1), argument(2), &run(&words[3..])),
        "take" => Call::Take {
            task: argument(1),
            queue: argument(2),
            keep: argument(3) != 0,
        },
        "sync" => Call::Sync { task: argument(1) },
        "finish" => Call::Finish { task: argument(1) },
        "left" => Call::Left {
            queue: argument(1),
            index: argument(2),
        },
        other => panic!("no call: {other}"),
    }
}

/// The values of a run; any values where only their number is told.
fn run(words: &[&str]) -> Vec<u32> {
    match words {
        [word] if word.starts_with('x') => (0..number(&word[1..])).collect(),
        _ => words.iter().map(|word| number(word)).collect(),
    }
}
