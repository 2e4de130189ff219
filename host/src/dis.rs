//! The disassembler: from a job to a text that the assembler turns back into
//! the same bytes.

use crate::job::{Instruction, Job, Procedure};
use crate::operations::{Operand, Right, Which, ALL_RIGHTS, OPERATIONS, QUEUES};

/// The text of a job. Procedure k is named `pk`; the label of instruction k is
/// `ik`, written where something goes to it.
pub fn disassemble(job: &Job) -> String {
    let mut text = format!("length {}\n", job.length());
    for (number, procedure) in job.procedures().iter().enumerate() {
        text += &format!("\nprocedure p{number}{}\n", rights(procedure.rights));
        text += &body(procedure);
    }
    text
}

/// The rights with a space before each word.
fn rights(rights: u8) -> String {
    if rights == ALL_RIGHTS {
        return " all".to_string();
    }
    let mut words = String::new();
    for queue in 0..QUEUES {
        for (right, name) in [(Right::Push, "push"), (Right::Pop, "pop")] {
            if rights & right.bit(queue) != 0 {
                words += &format!(" {name} {queue}");
            }
        }
    }
    words
}

/// The lines of a body.
fn body(procedure: &Procedure) -> String {
    let mut text = String::new();
    for (index, instruction) in procedure.body.iter().enumerate() {
        if procedure.body.iter().any(|i| target(i) == Some(index)) {
            text += &format!("i{index}:\n");
        }
        text += &format!("    {}\n", words(instruction));
    }
    text
}

/// The instruction that this one may go to.
fn target(i: &Instruction) -> Option<usize> {
    let operation = OPERATIONS[usize::from(i.operation)];
    (operation.operand == Operand::Target).then_some(i.operand as usize)
}

/// The words of an instruction.
fn words(i: &Instruction) -> String {
    let operation = OPERATIONS[usize::from(i.operation)];
    let which = match operation.which {
        Which::Unused => String::new(),
        Which::Queue(_) => format!(" {}", i.which),
        Which::Procedure => format!(" p{}", i.which),
    };
    let operand = match operation.operand {
        Operand::Unused => String::new(),
        Operand::Value => format!(" {}", i.operand),
        // What is added is shown as a number from -2^31 on, for counting down.
        Operand::Addend => format!(" {}", i.operand as i32),
        Operand::Target => format!(" i{}", i.operand),
    };
    format!("{}{which}{operand}", operation.name)
}
