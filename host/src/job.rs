//! A job: what the bytes of its file say, and the test that any bytes are put
//! to before they are a job (refusals 10, 11 and 12, in that order).

use crate::operations::{may_be_last, Operand, Which, ALL_RIGHTS, OPERATIONS, QUEUES};
use crate::refusal::{Breach, Refusal};

/// Bytes of the head: the number of procedures and L.
pub const HEAD: usize = 4;
/// Bytes of an entry of the contents.
pub const ENTRY: usize = 6;
/// Bytes of an instruction.
pub const INSTRUCTION: usize = 6;
pub const MOST_PROCEDURES: usize = 64;
/// The greatest L, the number of values that a segment holds.
pub const MOST_LENGTH: u16 = 64;
/// The most instructions of a body.
pub const MOST_INSTRUCTIONS: usize = 128;

#[derive(Clone, Copy, Debug, PartialEq, Eq)]
pub struct Instruction {
    pub operation: u8,
    pub which: u8,
    pub operand: u32,
}

#[derive(Clone, Debug, PartialEq, Eq)]
pub struct Procedure {
    pub rights: u8,
    pub body: Vec<Instruction>,
}

/// A job that passed the test. `Job::read` is the only way to make one.
#[derive(Clone, Debug, PartialEq, Eq)]
pub struct Job {
    length: u16,
    procedures: Vec<Procedure>,
}

impl Job {
    /// The test of a job on any bytes.
    pub fn read(bytes: &[u8]) -> Result<Job, Refusal> {
        let (number, length) = head(bytes)?;
        let entries = contents(bytes, number)?;
        let procedures: Vec<Procedure> = entries.iter().map(|e| e.procedure(bytes)).collect();
        for at in 0..procedures.len() {
            body(&procedures, at)?;
        }
        Ok(Job { length, procedures })
    }

    /// L, the number of values that a segment holds.
    pub fn length(&self) -> u16 {
        self.length
    }

    pub fn procedures(&self) -> &[Procedure] {
        &self.procedures
    }

    pub fn bytes(&self) -> Vec<u8> {
        write(self.length, &self.procedures)
    }
}

/// The bytes that say this, whether or not the test accepts them.
pub fn write(length: u16, procedures: &[Procedure]) -> Vec<u8> {
    let mut bytes = Vec::new();
    bytes.extend((procedures.len() as u16).to_le_bytes());
    bytes.extend(length.to_le_bytes());
    let mut offset = HEAD + ENTRY * procedures.len();
    for p in procedures {
        bytes.extend((offset as u16).to_le_bytes());
        bytes.extend((p.body.len() as u16).to_le_bytes());
        bytes.extend([p.rights, 0]);
        offset += INSTRUCTION * p.body.len();
    }
    for i in procedures.iter().flat_map(|p| &p.body) {
        bytes.extend([i.operation, i.which]);
        bytes.extend(i.operand.to_le_bytes());
    }
    bytes
}

/// Two bytes, the lower first.
fn two(bytes: &[u8], at: usize) -> u16 {
    u16::from_le_bytes([bytes[at], bytes[at + 1]])
}

/// Refusal 10: the number of procedures and L.
fn head(bytes: &[u8]) -> Result<(usize, u16), Refusal> {
    if bytes.len() < HEAD {
        return Err(Refusal::of_file(Breach::ShorterThanHead));
    }
    let (number, length) = (usize::from(two(bytes, 0)), two(bytes, 2));
    if !(1..=MOST_PROCEDURES).contains(&number) {
        return Err(Refusal::of_file(Breach::ProcedureNumber));
    }
    if !(1..=MOST_LENGTH).contains(&length) {
        return Err(Refusal::of_file(Breach::SegmentLength));
    }
    if bytes.len() < HEAD + ENTRY * number {
        return Err(Refusal::of_file(Breach::ShorterThanContents));
    }
    Ok((number, length))
}

/// An entry of the contents.
struct Entry {
    offset: usize,
    count: usize,
    rights: u8,
    zero: u8,
}

impl Entry {
    fn read(bytes: &[u8], at: usize) -> Entry {
        Entry {
            offset: usize::from(two(bytes, at)),
            count: usize::from(two(bytes, at + 2)),
            rights: bytes[at + 4],
            zero: bytes[at + 5],
        }
    }

    /// The procedure that the entry tells of; its body lies within the bytes.
    fn procedure(&self, bytes: &[u8]) -> Procedure {
        let body = &bytes[self.offset..self.offset + INSTRUCTION * self.count];
        let instruction = |b: &[u8]| Instruction {
            operation: b[0],
            which: b[1],
            operand: u32::from_le_bytes([b[2], b[3], b[4], b[5]]),
        };
        Procedure {
            rights: self.rights,
            body: body.chunks_exact(INSTRUCTION).map(instruction).collect(),
        }
    }
}

/// Refusal 11: the entries, and bodies without gaps to the end of the file.
fn contents(bytes: &[u8], number: usize) -> Result<Vec<Entry>, Refusal> {
    let mut offset = HEAD + ENTRY * number;
    let mut entries = Vec::new();
    for at in 0..number {
        let entry = Entry::read(bytes, HEAD + ENTRY * at);
        if let Some(breach) = entry_breach(&entry, at, offset) {
            return Err(Refusal::of_procedure(at, breach));
        }
        offset += INSTRUCTION * entry.count;
        entries.push(entry);
    }
    if offset != bytes.len() {
        return Err(Refusal::of_file(Breach::TotalLength));
    }
    Ok(entries)
}

/// The rule that entry number `at` breaks; its body is due at `offset`.
fn entry_breach(entry: &Entry, at: usize, offset: usize) -> Option<Breach> {
    if entry.offset != offset {
        Some(Breach::BodyOffset)
    } else if !(1..=MOST_INSTRUCTIONS).contains(&entry.count) {
        Some(Breach::InstructionNumber)
    } else if entry.zero != 0 {
        Some(Breach::EntryNotZero)
    } else if at == 0 && entry.rights != ALL_RIGHTS {
        Some(Breach::TopRights)
    } else {
        None
    }
}

/// Refusal 12: the instructions of one procedure.
fn body(procedures: &[Procedure], at: usize) -> Result<(), Refusal> {
    let own = &procedures[at];
    for (index, instruction) in own.body.iter().enumerate() {
        let last = index + 1 == own.body.len();
        let breach = match instruction_breach(procedures, own, instruction) {
            None if last && !may_be_last(instruction.operation) => Some(Breach::WrongLast),
            other => other,
        };
        if let Some(breach) = breach {
            return Err(Refusal::of_instruction(at, index, breach));
        }
    }
    Ok(())
}

/// The rule of the table of operations that an instruction breaks.
fn instruction_breach(all: &[Procedure], own: &Procedure, i: &Instruction) -> Option<Breach> {
    let Some(operation) = OPERATIONS.get(usize::from(i.operation)) else {
        return Some(Breach::NoSuchOperation);
    };
    let which = match operation.which {
        Which::Unused => (i.which != 0).then_some(Breach::WhichNotZero),
        Which::Queue(_) if i.which >= QUEUES => Some(Breach::NoSuchQueue),
        Which::Queue(right) => {
            (own.rights & right.bit(i.which) == 0).then_some(Breach::RightNotHeld)
        }
        Which::Procedure => match all.get(usize::from(i.which)) {
            None => Some(Breach::NoSuchProcedure),
            Some(child) => (child.rights & !own.rights != 0).then_some(Breach::ChildGivenMore),
        },
    };
    which.or(match operation.operand {
        Operand::Unused => (i.operand != 0).then_some(Breach::OperandNotZero),
        Operand::Value | Operand::Addend => None,
        Operand::Target => (i.operand as usize >= own.body.len()).then_some(Breach::GoesNowhere),
    })
}
