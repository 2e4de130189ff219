//! The file of a job: its bytes, or a text that is assembled.

use super::Fault;
use host::asm::assemble;
use host::source::Source;
use std::fs;
use std::io::Read;

/// A job, with the names of its procedures where it came as text.
pub struct Input {
    pub bytes: Vec<u8>,
    pub names: Vec<String>,
}

/// The text that the bytes are, if they are one. No job is: its number of
/// procedures is at most 64, in two bytes of which one is 0.
fn text(bytes: &[u8]) -> Option<&str> {
    let text = std::str::from_utf8(bytes).ok()?;
    let text = text.strip_prefix('\u{feff}').unwrap_or(text);
    (!text.contains('\0') && !text.trim().is_empty()).then_some(text)
}

fn read(file: &str) -> Result<Vec<u8>, Fault> {
    fs::read(file).map_err(|e| Fault(format!("{file}: {e}")))
}

/// The bytes of a text. A carriage return at the end of a line is white space.
fn assembled(file: &str, text: &str) -> Result<Input, Fault> {
    let fault = |fault: host::source::Fault| Fault(format!("{file}: {fault}"));
    let bytes = assemble(text).map_err(fault)?;
    let source = Source::read(text).map_err(fault)?;
    let names = source.procedures.iter().map(|p| p.name.to_string());
    Ok(Input {
        bytes,
        names: names.collect(),
    })
}

pub fn job(file: &str) -> Result<Input, Fault> {
    let bytes = read(file)?;
    match text(&bytes) {
        Some(text) => assembled(file, text),
        None => Ok(Input {
            bytes,
            names: Vec::new(),
        }),
    }
}

/// The bytes of a file, or of standard input where the file is `-`.
pub fn bytes(file: &str) -> Result<Vec<u8>, Fault> {
    if file != "-" {
        return read(file);
    }
    let mut bytes = Vec::new();
    let read = std::io::stdin().read_to_end(&mut bytes);
    read.map_err(|e| Fault(format!("standard input: {e}")))?;
    Ok(bytes)
}

/// The bytes of a file that has to be a text.
pub fn only_text(file: &str) -> Result<Vec<u8>, Fault> {
    let bytes = read(file)?;
    match text(&bytes) {
        Some(text) => assembled(file, text).map(|input| input.bytes),
        None => Err(Fault(format!("{file}: no text of a job"))),
    }
}
