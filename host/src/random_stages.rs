//! Random jobs of stages with few rights each, which mostly only push or only pop, and
//! go on for different times. So values come from tasks that are unfinished, and it
//! matters which finish and which push an instruction waits for. They have no loops
//! and always end.

use crate::job::{write, Instruction, Procedure};
use crate::operations::*;
use crate::random::Random;

/// The bytes of a random job.
pub fn staged(r: &mut Random) -> Vec<u8> {
    let number = r.within(2, 6) as usize;
    let mut rights = vec![ALL_RIGHTS];
    let most = r.pick(&[1, 1, 2, 4]);
    for at in 1..number {
        // The same rights as another stage, which may then spawn it.
        let other = r.below(at as u32) as usize;
        rights.push(match other > 0 && r.chance(60) {
            true => rights[other],
            false => few_rights(r, most),
        });
    }
    let body = |at| Procedure {
        rights: rights[at],
        body: body(r, &rights, at),
    };
    let procedures: Vec<Procedure> = (0..number).map(body).collect();
    write(r.within(1, 64) as u16, &procedures)
}

/// One or two rights on the first so many queues, sometimes more or none.
fn few_rights(r: &mut Random, queues: u32) -> u8 {
    let number = r.pick(&[0, 1, 1, 1, 1, 2, 2, 3]);
    let mut rights = 0;
    for _ in 0..number {
        let right = r.pick(&[Right::Push, Right::Pop]);
        rights |= right.bit(r.below(queues) as u8);
    }
    rights
}

/// The operations of a body, with how often each is tried; some of them need a right.
const LIKELY: [u8; 14] = [
    PUSH,
    PUSH,
    PUSH_REGISTER,
    POP,
    POP,
    GO_IF_EMPTY,
    TAKE_OR_GO,
    GO,
    GO_IF_ZERO,
    ADD,
    SPAWN,
    SPAWN,
    SPAWN,
    SYNC,
];

fn body(r: &mut Random, rights: &[u8], own: usize) -> Vec<Instruction> {
    let mut body = Vec::new();
    if own == 0 && r.chance(50) {
        // Many tasks together, often more than there are workers.
        let other = |r: &mut Random| r.within(1, rights.len() as u32 - 1) as u8;
        let spawns = r.within(2, 14);
        body.extend((0..spawns).map(|_| instruction(SPAWN, other(r), 0)));
    }
    let most = if own == 0 { 20 } else { 6 };
    for _ in 0..r.within(1, most) {
        if r.chance(25) {
            let times = r.pick(&[1, 3, 8, 20]);
            let room = 100usize.saturating_sub(body.len());
            body.extend(vec![instruction(ADD, 0, 0); times.min(room)]);
        }
        body.extend(some(r, rights, own));
    }
    body.push(instruction(RETURN, 0, 0));
    let end = body.len() as u32 - 1;
    for (at, i) in (0u32..).zip(&mut body) {
        if OPERATIONS[usize::from(i.operation)].operand == Operand::Target {
            i.operand = r.within(at + 1, (at + 4).min(end));
        }
    }
    body
}

/// An instruction that procedure `own` may have; its target is set later.
fn some(r: &mut Random, rights: &[u8], own: usize) -> Option<Instruction> {
    let operation = r.pick(&LIKELY);
    let operand = r.below(3);
    match OPERATIONS[usize::from(operation)].which {
        Which::Unused if operation == SYNC => Some(instruction(SYNC, 0, 0)),
        Which::Unused => Some(instruction(operation, 0, operand)),
        Which::Queue(right) => {
            let may = |q: &u8| rights[own] & right.bit(*q) != 0;
            let queues: Vec<u8> = (0..QUEUES).filter(may).collect();
            (!queues.is_empty())
                .then(|| instruction(operation, r.pick(&queues), operand_of(operation, operand)))
        }
        Which::Procedure => {
            let may = |at: &usize| rights[*at] & !rights[own] == 0;
            let others: Vec<usize> = (own + 1..rights.len()).filter(may).collect();
            (!others.is_empty()).then(|| instruction(operation, r.pick(&others) as u8, operand))
        }
    }
}

/// A pop has no operand.
fn operand_of(operation: u8, operand: u32) -> u32 {
    match OPERATIONS[usize::from(operation)].operand {
        Operand::Unused => 0,
        _ => operand,
    }
}

fn instruction(operation: u8, which: u8, operand: u32) -> Instruction {
    Instruction {
        operation,
        which,
        operand,
    }
}
