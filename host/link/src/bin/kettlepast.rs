//! The tool for users: `kettlepast --help` says what it does.

use link::tool::{answer, finish};
use std::process::ExitCode;

fn main() -> ExitCode {
    let words = std::env::args_os().skip(1);
    let words: Vec<String> = words
        .map(|word| word.to_string_lossy().into_owned())
        .collect();
    finish(answer(&words))
}
