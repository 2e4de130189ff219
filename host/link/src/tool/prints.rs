//! The commands that print a run, a picture or a job.

use super::input::{self, Input};
use super::words::Words;
use super::{Fault, Said};
use crate::on_off::reply;
use crate::picture::svg;
use crate::proved_run::printed;
use host::dis::disassemble as text_of;
use host::job::Job;
use hyperqueue::jobs::{self, ANSWERS, WORKING};
use hyperqueue::Answer;
use std::fmt::Write;
use std::fs;

fn refused(number: u32) -> Said {
    Said::only(false, format!("job refused {number}\n"))
}

fn left(out: &mut String, queue: usize, values: &[u32]) {
    for value in values {
        let _ = writeln!(out, "left {queue} {value}");
    }
}

pub fn run(words: &Words) -> Result<Said, Fault> {
    let tasks = words.tasks()?;
    let job = input::job(words.file)?;
    Ok(match printed(&job.bytes, &tasks) {
        Ok(printed) => Said::only(printed.fine, printed.text),
        Err(number) => refused(number),
    })
}

pub fn serial(words: &Words) -> Result<Said, Fault> {
    let Input { bytes, .. } = input::job(words.file)?;
    let (mut working, mut answers) = (vec![0; WORKING], vec![0; ANSWERS]);
    let Answer { status, value } = jobs::run_serially(&bytes, &mut working, &mut answers);
    let steps = value as usize;
    if (10..=12).contains(&status) {
        return Ok(refused(status));
    }
    let mut out = String::new();
    for (number, row) in (1..).zip(answers[..3 * steps].chunks_exact(3)) {
        let _ = writeln!(out, "{number} {} {}", row[0], reply(row[1], row[2]));
    }
    match status {
        Answer::MOVED => {
            for (queue, values) in jobs::queues(&working).iter().enumerate() {
                left(&mut out, queue, values);
            }
        }
        Answer::SPENT => out += "spent\n",
        number => {
            let _ = writeln!(out, "refused {number}");
        }
    }
    Ok(Said::only(status == Answer::MOVED, out))
}

pub fn draw(words: &Words) -> Result<Said, Fault> {
    let tasks: Vec<u32> = words.tasks()?.into_iter().map(u32::from).collect();
    let job = input::job(words.file)?;
    Ok(match svg(&job.bytes, &job.names, &tasks) {
        Ok(picture) => Said::fine(picture),
        Err(number) => refused(number),
    })
}

pub fn assemble(words: &Words) -> Result<Said, Fault> {
    let bytes = input::only_text(words.file)?;
    let out = words.one();
    fs::write(out, bytes).map_err(|e| Fault(format!("{out}: {e}")))?;
    Ok(Said::fine(String::new()))
}

/// A refusal with the model's reason, where it has one.
pub fn told(bytes: &[u8], number: u32) -> Said {
    let why = Job::read(bytes).err().filter(|why| why.number() == number);
    let why = why.map_or(String::new(), |why| format!(": {why}"));
    Said::only(false, format!("job refused {number}{why}\n"))
}

/// The job, or the number with which the library refuses it.
fn accepted(bytes: &[u8]) -> Result<Job, u32> {
    let number = jobs::test(bytes).status;
    if number != 0 {
        return Err(number);
    }
    Job::read(bytes).map_err(|why| why.number())
}

pub fn disassemble(words: &Words) -> Result<Said, Fault> {
    let Input { bytes, .. } = input::job(words.file)?;
    Ok(match accepted(&bytes) {
        Ok(job) => Said::fine(text_of(&job)),
        Err(number) => told(&bytes, number),
    })
}

pub fn test(words: &Words) -> Result<Said, Fault> {
    let Input { bytes, .. } = input::job(words.file)?;
    let job = match accepted(&bytes) {
        Ok(job) => job,
        Err(number) => return Ok(told(&bytes, number)),
    };
    let procedures = job.procedures();
    let instructions: usize = procedures.iter().map(|p| p.body.len()).sum();
    Ok(Said::fine(format!(
        "a job: {} bytes, {} procedures, {instructions} instructions, {} values a segment\n",
        bytes.len(),
        procedures.len(),
        job.length()
    )))
}
