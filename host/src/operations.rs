//! The eleven operations of a job in one table: what the two fields of an
//! instruction mean, and which right it needs. The job test, the plain machine,
//! the assembler and the random jobs all read this table.

/// Queues are numbered 0 to 3.
pub const QUEUES: u8 = 4;

/// All rights on all queues: those of the top task.
pub const ALL_RIGHTS: u8 = 255;

/// A right on a queue.
#[derive(Clone, Copy, Debug, PartialEq, Eq)]
pub enum Right {
    Push,
    Pop,
}

impl Right {
    /// Its bit in the byte of rights: for queue q, 2q is push and 2q + 1 pop.
    pub fn bit(self, queue: u8) -> u8 {
        match self {
            Right::Push => 1 << (2 * queue),
            Right::Pop => 2 << (2 * queue),
        }
    }
}

/// What the field "which" of an instruction names.
#[derive(Clone, Copy, Debug, PartialEq, Eq)]
pub enum Which {
    /// Nothing; the field is zero.
    Unused,
    /// A queue on which the procedure needs this right.
    Queue(Right),
    /// The procedure to spawn.
    Procedure,
}

/// What the field "operand" of an instruction says.
#[derive(Clone, Copy, Debug, PartialEq, Eq)]
pub enum Operand {
    /// Nothing; the field is zero.
    Unused,
    /// A value as it is.
    Value,
    /// A number added to the register; the sum drops what exceeds 32 bits.
    Addend,
    /// An instruction of the same body, counted from 0.
    Target,
}

/// One operation; its number is its place in the table.
#[derive(Clone, Copy, Debug, PartialEq, Eq)]
pub struct Operation {
    /// Its word in the text form of a job.
    pub name: &'static str,
    pub which: Which,
    pub operand: Operand,
}

pub const RETURN: u8 = 0;
pub const PUSH: u8 = 1;
pub const PUSH_REGISTER: u8 = 2;
pub const POP: u8 = 3;
pub const GO_IF_EMPTY: u8 = 4;
pub const GO: u8 = 5;
pub const GO_IF_ZERO: u8 = 6;
pub const ADD: u8 = 7;
pub const SPAWN: u8 = 8;
pub const SYNC: u8 = 9;
pub const TAKE_OR_GO: u8 = 10;

pub const OPERATIONS: [Operation; 11] = [
    operation("return", Which::Unused, Operand::Unused),
    operation("push", Which::Queue(Right::Push), Operand::Value),
    operation("push-register", Which::Queue(Right::Push), Operand::Addend),
    operation("pop", Which::Queue(Right::Pop), Operand::Unused),
    operation("go-if-empty", Which::Queue(Right::Pop), Operand::Target),
    operation("go", Which::Unused, Operand::Target),
    operation("go-if-zero", Which::Unused, Operand::Target),
    operation("add", Which::Unused, Operand::Addend),
    operation("spawn", Which::Procedure, Operand::Addend),
    operation("sync", Which::Unused, Operand::Unused),
    operation("take-or-go", Which::Queue(Right::Pop), Operand::Target),
];

const fn operation(name: &'static str, which: Which, operand: Operand) -> Operation {
    Operation {
        name,
        which,
        operand,
    }
}

/// The number of the operation of that name.
pub fn named(name: &str) -> Option<u8> {
    let mut numbered = (0..).zip(&OPERATIONS);
    let found = numbered.find(|(_, operation)| operation.name == name);
    found.map(|(number, _)| number)
}

/// May the last instruction of a body be of this operation?
pub fn may_be_last(operation: u8) -> bool {
    operation == RETURN || operation == GO
}
