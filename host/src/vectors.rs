//! Vectors: jobs and traces with the answers of models that were written apart
//! from this one. The head of the file says how they are written.

use crate::replay::Judged;
use crate::simulate::{Simulated, OURS};
use std::fs;

const LEVEL_6: &str = concat!(env!("CARGO_MANIFEST_DIR"), "/tests/vectors/level-6.txt");

/// A job and what is answered.
#[derive(Default)]
pub struct Vector {
    pub job: Vec<u8>,
    /// 0, or the number of the refusal.
    pub test: u32,
    pub tasks: Vec<u8>,
    /// What the run of these tasks prints.
    pub printed: String,
    /// Why the run without overlap stopped and its steps, of an accepted job.
    pub serial: Option<(String, usize)>,
    /// The values that it left, queue by queue.
    pub queues: Vec<Vec<u32>>,
    pub replays: Vec<(String, Judged)>,
    /// Workers, and the answer with our ticks.
    pub simulations: Vec<(u32, Simulated)>,
}

impl Vector {
    /// Adds a line of text to the trace or print that was begun last.
    fn text(&mut self, line: &str, end: &str) {
        let text = match self.replays.last_mut() {
            Some((trace, _)) => trace,
            None => &mut self.printed,
        };
        *text += line;
        *text += end;
    }
}

/// The vectors that hold once requests 1 to 6 are in.
pub fn level_6() -> Vec<Vector> {
    let text = fs::read_to_string(LEVEL_6).expect("the file of the vectors");
    let mut vectors: Vec<Vector> = Vec::new();
    for line in text.lines() {
        let (word, rest) = line.split_once(' ').unwrap_or((line, ""));
        if word == "job" {
            vectors.push(Vector::default());
        }
        let Some(vector) = vectors.last_mut() else {
            continue;
        };
        match (line.as_bytes()[0], word) {
            (b'|', _) => vector.text(&line[1..], "\n"),
            (b':', _) => vector.text(&line[1..], ""),
            (_, "job") => vector.job = bytes(rest),
            (_, "test") => vector.test = number(rest),
            (_, "tasks") => vector.tasks = bytes(rest),
            (_, "serial") => {
                let (end, steps) = rest.split_once(' ').expect("an end and steps");
                vector.serial = Some((end.to_string(), number(steps) as usize));
            }
            (_, "queue") => vector.queues.push(numbers(rest)),
            (_, "table") => assert_eq!(numbers(rest), OURS, "other ticks"),
            (_, "simulate") => vector.simulations.push(simulated(rest)),
            (_, "replay") => vector.replays.push((String::new(), judged(rest))),
            (_, "printed") => {}
            _ => panic!("no line of a vector: {line}"),
        }
    }
    vectors
}

fn number(word: &str) -> u32 {
    word.parse().expect("a number")
}

fn numbers(words: &str) -> Vec<u32> {
    words.split_whitespace().map(number).collect()
}

fn bytes(hexadecimal: &str) -> Vec<u8> {
    let byte = |at| u8::from_str_radix(&hexadecimal[at..at + 2], 16).expect("two digits");
    (0..hexadecimal.len()).step_by(2).map(byte).collect()
}

fn judged(words: &str) -> Judged {
    match words.split_once(' ') {
        None if words == "agrees" => Judged::Agrees,
        Some(("differs", line)) => Judged::Differs(number(line)),
        Some(("refused", why)) => Judged::Refused(number(why)),
        _ => panic!("no answer to a trace: {words}"),
    }
}

/// The workers, and the answer.
fn simulated(words: &str) -> (u32, Simulated) {
    let words: Vec<&str> = words.split(' ').collect();
    let long = |word: &str| u64::from(number(word));
    let answer = match words[1..] {
        ["ended", ticks, work, span] => Simulated::Ended {
            ticks: long(ticks),
            work: long(work),
            span: long(span),
        },
        ["refused", why] => Simulated::Refused(number(why)),
        _ => panic!("no answer to a simulation: {words:?}"),
    };
    (number(words[0]), answer)
}
