//! Why bytes are not a job: the rule broken and where. Document 01 tells only
//! the number; the rest is for the people who write jobs.

use std::fmt;

/// A rule of a job's form, broken.
#[derive(Clone, Copy, Debug, PartialEq, Eq)]
pub enum Breach {
    // Number 10.
    ShorterThanHead,
    ProcedureNumber,
    SegmentLength,
    ShorterThanContents,
    // Number 11.
    BodyOffset,
    InstructionNumber,
    EntryNotZero,
    TopRights,
    TotalLength,
    // Number 12.
    NoSuchOperation,
    WhichNotZero,
    NoSuchQueue,
    RightNotHeld,
    NoSuchProcedure,
    ChildGivenMore,
    OperandNotZero,
    GoesNowhere,
    WrongLast,
}

impl Breach {
    /// Document 01's number of the refusal, and the rule in words.
    fn told(self) -> (u32, &'static str) {
        match self {
            Breach::ShorterThanHead => (10, "shorter than the head of 4 bytes"),
            Breach::ProcedureNumber => (10, "the number of procedures is not 1 to 64"),
            Breach::SegmentLength => (10, "L is not 1 to 64"),
            Breach::ShorterThanContents => (10, "shorter than head and contents"),
            Breach::BodyOffset => (11, "the body does not follow the one before it"),
            Breach::InstructionNumber => (11, "the number of instructions is not 1 to 128"),
            Breach::EntryNotZero => (11, "the last byte of the entry is not zero"),
            Breach::TopRights => (11, "the rights of procedure 0 are not 255"),
            Breach::TotalLength => (11, "the bodies do not end where the file ends"),
            Breach::NoSuchOperation => (12, "no such operation"),
            Breach::WhichNotZero => (12, "the unused field `which` is not zero"),
            Breach::NoSuchQueue => (12, "no such queue"),
            Breach::RightNotHeld => (12, "the procedure lacks that right on the queue"),
            Breach::NoSuchProcedure => (12, "no such procedure"),
            Breach::ChildGivenMore => (12, "the spawned procedure has a right its spawner lacks"),
            Breach::OperandNotZero => (12, "the unused operand is not zero"),
            Breach::GoesNowhere => (12, "no such instruction in the body to go to"),
            Breach::WrongLast => (12, "the last instruction of a body is a return or a go"),
        }
    }

    pub fn number(self) -> u32 {
        self.told().0
    }
}

/// A refused job: the rule broken, and the procedure and instruction if it is
/// theirs.
#[derive(Clone, Copy, Debug, PartialEq, Eq)]
pub struct Refusal {
    pub breach: Breach,
    pub procedure: Option<usize>,
    pub instruction: Option<usize>,
}

impl Refusal {
    pub fn of_file(breach: Breach) -> Refusal {
        Refusal {
            breach,
            procedure: None,
            instruction: None,
        }
    }

    pub fn of_procedure(procedure: usize, breach: Breach) -> Refusal {
        Refusal {
            breach,
            procedure: Some(procedure),
            instruction: None,
        }
    }

    pub fn of_instruction(procedure: usize, instruction: usize, breach: Breach) -> Refusal {
        Refusal {
            breach,
            procedure: Some(procedure),
            instruction: Some(instruction),
        }
    }

    /// Document 01's number: 10, 11 or 12.
    pub fn number(self) -> u32 {
        self.breach.number()
    }
}

impl fmt::Display for Breach {
    fn fmt(&self, f: &mut fmt::Formatter) -> fmt::Result {
        f.write_str(self.told().1)
    }
}

impl fmt::Display for Refusal {
    fn fmt(&self, f: &mut fmt::Formatter) -> fmt::Result {
        if let Some(procedure) = self.procedure {
            write!(f, "procedure {procedure}, ")?;
        }
        if let Some(instruction) = self.instruction {
            write!(f, "instruction {instruction}, ")?;
        }
        write!(f, "{}", self.breach)
    }
}
