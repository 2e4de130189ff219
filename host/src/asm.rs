//! The assembler: from the text of a job to its bytes. The form of the text is
//! told in `source`. What it makes has passed the test of a job.

use crate::job::{self, Instruction, Job, Procedure};
use crate::operations::{Operand, Operation, Right, Which, ALL_RIGHTS, OPERATIONS, QUEUES};
use crate::refusal::Refusal;
use crate::source::{Draft, Fault, Source, Words};

/// The bytes of the job that the text writes.
pub fn assemble(text: &str) -> Result<Vec<u8>, Fault> {
    let source = Source::read(text)?;
    let Some(length) = source.length else {
        return Err(Fault {
            line: source.lines,
            what: "no line `length L`".to_string(),
        });
    };
    let procedures = source.procedures.iter().map(|p| procedure(&source, p));
    let procedures = procedures.collect::<Result<Vec<Procedure>, Fault>>()?;
    let bytes = job::write(length, &procedures);
    match Job::read(&bytes) {
        Ok(_) => Ok(bytes),
        Err(refusal) => Err(fault(&source, refusal)),
    }
}

/// A refusal of the job, told at the line that causes it.
fn fault(source: &Source, refusal: Refusal) -> Fault {
    let draft = refusal.procedure.map(|at| &source.procedures[at]);
    let line = match (draft, refusal.instruction) {
        (None, _) => source.lines,
        (Some(draft), None) => draft.rights.line,
        (Some(draft), Some(at)) => draft.body[at].1.line,
    };
    Fault {
        line,
        what: refusal.breach.to_string(),
    }
}

fn procedure(source: &Source, draft: &Draft) -> Result<Procedure, Fault> {
    let lines = draft.body.iter();
    let body = lines.map(|(operation, words)| instruction(source, draft, *operation, words));
    Ok(Procedure {
        rights: rights(source, &draft.rights)?,
        body: body.collect::<Result<Vec<Instruction>, Fault>>()?,
    })
}

/// The byte of rights: `all`, or `push QUEUE` and `pop QUEUE` in any number.
fn rights(source: &Source, words: &Words) -> Result<u8, Fault> {
    if words.words == ["all"] {
        return Ok(ALL_RIGHTS);
    }
    let mut rights = 0;
    for pair in words.words.chunks(2) {
        let (right, name) = match pair {
            ["push", name] => (Right::Push, name),
            ["pop", name] => (Right::Pop, name),
            _ => {
                let what = "rights are `all`, or `push QUEUE` and `pop QUEUE`";
                return Err(words.fault(format!("{what}, not `{}`", pair.join(" "))));
            }
        };
        rights |= right.bit(queue(source, words, name)?);
    }
    Ok(rights)
}

/// One line of a body.
fn instruction(
    source: &Source,
    draft: &Draft,
    number: u8,
    words: &Words,
) -> Result<Instruction, Fault> {
    let operation = &OPERATIONS[usize::from(number)];
    let form = form(operation);
    if form.split(' ').count() != words.words.len() {
        return Err(words.fault(format!("the form is `{form}`")));
    }
    let mut fields = words.words[1..].iter();
    let mut field = || fields.next().copied().unwrap_or_default();
    Ok(Instruction {
        operation: number,
        which: match operation.which {
            Which::Unused => 0,
            Which::Queue(_) => queue(source, words, field())?,
            Which::Procedure => spawned(source, words, field())?,
        },
        operand: match operation.operand {
            Operand::Unused => 0,
            Operand::Value | Operand::Addend => number_of(words, field())?,
            Operand::Target => target(draft, words, field())?,
        },
    })
}

/// How an instruction of the operation is written.
fn form(operation: &Operation) -> String {
    let which = match operation.which {
        Which::Unused => "",
        Which::Queue(_) => " QUEUE",
        Which::Procedure => " PROCEDURE",
    };
    let operand = match operation.operand {
        Operand::Unused => "",
        Operand::Value | Operand::Addend => " NUMBER",
        Operand::Target => " LABEL",
    };
    format!("{}{which}{operand}", operation.name)
}

/// A queue by its name or number.
fn queue(source: &Source, words: &Words, written: &str) -> Result<u8, Fault> {
    let by_number = written.parse().ok().filter(|queue| *queue < QUEUES);
    let found = source.queues.get(written).copied().or(by_number);
    found.ok_or_else(|| words.fault(format!("unknown queue `{written}`")))
}

/// The number of the procedure of that name.
fn spawned(source: &Source, words: &Words, name: &str) -> Result<u8, Fault> {
    let mut numbered = (0..).zip(&source.procedures);
    let found = numbered.find(|(_, draft)| draft.name == name);
    let unknown = || words.fault(format!("unknown procedure `{name}`"));
    found.map(|(number, _)| number).ok_or_else(unknown)
}

/// The instruction that a label stands before.
fn target(draft: &Draft, words: &Words, label: &str) -> Result<u32, Fault> {
    match draft.labels.get(label) {
        None => Err(words.fault(format!("unknown label `{label}`"))),
        Some(place) if *place == draft.body.len() => {
            Err(words.fault(format!("no instruction follows label `{label}`")))
        }
        Some(place) => Ok(*place as u32),
    }
}

/// A word of 32 bits; a number below 0 is written for the word that is as much
/// below 4,294,967,296.
fn number_of(words: &Words, written: &str) -> Result<u32, Fault> {
    let range = i64::from(i32::MIN)..=i64::from(u32::MAX);
    match written.parse::<i64>() {
        Ok(number) if range.contains(&number) => Ok(number as u32),
        _ => {
            let what = "is not a number from -2147483648 to 4294967295";
            Err(words.fault(format!("`{written}` {what}")))
        }
    }
}
