//! The tool for users, `kettlepast`: what each of its commands says, and with
//! which exit status. 0: fine. 1: a difference, a refusal, or a run that was
//! stopped. 2: the arguments or a file.

mod compare;
mod help;
mod input;
mod prints;
mod replay;
mod simulate;
mod words;

use help::{COMMANDS, OVERVIEW};
use std::io::{ErrorKind, Write};
use std::process::ExitCode;
use words::Words;

/// What a command prints, and its exit status.
#[derive(Debug, PartialEq, Eq)]
pub struct Said {
    pub out: String,
    pub status: u8,
}

impl Said {
    fn fine(out: String) -> Said {
        Said { out, status: 0 }
    }

    /// Fine only where `fine` says so.
    fn only(fine: bool, out: String) -> Said {
        Said {
            out,
            status: u8::from(!fine),
        }
    }
}

/// What is wrong with the arguments or a file. It is said on standard error.
#[derive(Debug, PartialEq, Eq)]
pub struct Fault(pub String);

/// What the words of a command line are answered.
pub fn answer(words: &[String]) -> Result<Said, Fault> {
    let Some((first, rest)) = words.split_first() else {
        return Err(Fault(OVERVIEW.to_string()));
    };
    match first.as_str() {
        "--help" | "-h" | "help" => return Ok(Said::fine(OVERVIEW.to_string())),
        "--version" | "-V" => return Ok(Said::fine(version())),
        _ => {}
    }
    let Some(command) = COMMANDS.iter().find(|command| command.name == first) else {
        let what = format!("kettlepast: no command `{first}`; `kettlepast --help` lists them");
        return Err(Fault(what));
    };
    if rest.iter().any(|word| word == "--help" || word == "-h") {
        return Ok(Said::fine(command.help()));
    }
    let words = Words::new(command, rest)?;
    match command.name {
        "run" => prints::run(&words),
        "serial" => prints::serial(&words),
        "compare" => compare::compare(&words),
        "replay" => replay::replay(&words),
        "simulate" => simulate::simulate(&words),
        "draw" => prints::draw(&words),
        "assemble" => prints::assemble(&words),
        "disassemble" => prints::disassemble(&words),
        _ => prints::test(&words),
    }
}

fn version() -> String {
    format!("kettlepast {}\n", env!("CARGO_PKG_VERSION"))
}

/// Prints the answer. A pipe that the reader closed ends the tool quietly.
pub fn finish(answer: Result<Said, Fault>) -> ExitCode {
    let said = match answer {
        Ok(said) => said,
        Err(Fault(what)) => {
            eprintln!("{}", what.trim_end());
            return ExitCode::from(2);
        }
    };
    let mut out = std::io::stdout().lock();
    match out
        .write_all(said.out.as_bytes())
        .and_then(|()| out.flush())
    {
        Err(e) if e.kind() != ErrorKind::BrokenPipe => {
            eprintln!("standard output: {e}");
            ExitCode::from(2)
        }
        _ => ExitCode::from(said.status),
    }
}
