//! Random jobs that begin with few segments or few task records free, so that 8
//! and 9 come now and then.

use crate::job::{write, Instruction, Job, Procedure, MOST_INSTRUCTIONS, MOST_PROCEDURES};
use crate::operations::*;
use crate::random::Random;
use crate::random_jobs::accepted;

fn instruction(operation: u8, which: u8, operand: u32) -> Instruction {
    Instruction {
        operation,
        which,
        operand,
    }
}

/// The bytes of a random job.
pub fn crowded(r: &mut Random) -> Vec<u8> {
    let bytes = accepted(r);
    let job = Job::read(&bytes).expect("a random job");
    let mut procedures = job.procedures().to_vec();
    let mut length = job.length();
    let few_segments = r.chance(60);
    if few_segments {
        length = 1;
        fill(r, &mut procedures[0]);
    }
    if !few_segments || r.chance(20) {
        procedures = deepen(r, procedures);
    }
    write(length, &procedures)
}

/// The top first pushes as many values to one queue as leave few segments free.
fn fill(r: &mut Random, top: &mut Procedure) {
    let values = r.within(246, 254);
    let queue = r.below(u32::from(QUEUES)) as u8;
    let first = [
        instruction(ADD, 0, values),
        instruction(GO_IF_ZERO, 0, 5),
        instruction(PUSH, queue, 1),
        instruction(ADD, 0, u32::MAX),
        instruction(GO, 0, 1),
    ];
    if top.body.len() + first.len() > MOST_INSTRUCTIONS {
        return;
    }
    let mut body = first.to_vec();
    body.extend(top.body.iter().map(|i| moved_down(*i, first.len())));
    top.body = body;
}

/// The instruction where it stands so many places further down.
fn moved_down(i: Instruction, places: usize) -> Instruction {
    match OPERATIONS[usize::from(i.operation)].operand {
        Operand::Target => Instruction {
            operand: i.operand + places as u32,
            ..i
        },
        _ => i,
    }
}

/// The job is run at the end of a line of tasks below each other.
fn deepen(r: &mut Random, procedures: Vec<Procedure>) -> Vec<Procedure> {
    if procedures.len() + 2 > MOST_PROCEDURES {
        return procedures;
    }
    let levels = r.within(115, 124);
    let top = vec![instruction(SPAWN, 1, levels), instruction(RETURN, 0, 0)];
    let line = vec![
        instruction(GO_IF_ZERO, 0, 3),
        instruction(SPAWN, 1, u32::MAX),
        instruction(RETURN, 0, 0),
        instruction(SPAWN, 2, 0),
        instruction(RETURN, 0, 0),
    ];
    let with_all_rights = |body| Procedure {
        rights: ALL_RIGHTS,
        body,
    };
    let behind = procedures.into_iter().map(|mut procedure| {
        for i in procedure.body.iter_mut().filter(|i| i.operation == SPAWN) {
            i.which += 2;
        }
        procedure
    });
    let lines = [top, line].map(with_all_rights);
    lines.into_iter().chain(behind).collect()
}
