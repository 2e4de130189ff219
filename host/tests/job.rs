//! The test of a job: document 01's job, and every case of refusals 10, 11
//! and 12 with the order between them.

use host::job::{write, Instruction, Job, Procedure};
use host::refusal::Breach::{self, *};

fn ins(operation: u8, which: u8, operand: u32) -> Instruction {
    Instruction {
        operation,
        which,
        operand,
    }
}

fn procedure(rights: u8, body: &[Instruction]) -> Procedure {
    Procedure {
        rights,
        body: body.to_vec(),
    }
}

const RETURN: Instruction = Instruction {
    operation: 0,
    which: 0,
    operand: 0,
};

/// Document 01's job of 94 bytes, written out.
#[rustfmt::skip]
const BYTES: [u8; 94] = [
    4, 0, 4, 0,
    28, 0, 5, 0, 255, 0,  58, 0, 2, 0, 1, 0,  70, 0, 2, 0, 2, 0,  82, 0, 2, 0, 1, 0,
    8, 1, 0, 0, 0, 0,  8, 2, 0, 0, 0, 0,  8, 3, 0, 0, 0, 0,  9, 0, 0, 0, 0, 0,  0, 0, 0, 0, 0, 0,
    1, 0, 10, 0, 0, 0,  0, 0, 0, 0, 0, 0,
    3, 0, 0, 0, 0, 0,  0, 0, 0, 0, 0, 0,
    1, 0, 20, 0, 0, 0,  0, 0, 0, 0, 0, 0,
];

/// The rule broken, its number checked.
fn breach(bytes: &[u8], number: u32) -> Breach {
    let refusal = Job::read(bytes).expect_err("refused");
    assert_eq!(refusal.number(), number, "{refusal}");
    refusal.breach
}

/// Document 01's job with some bytes changed.
fn changed(changes: &[(usize, u8)]) -> Vec<u8> {
    let mut bytes = BYTES.to_vec();
    for (at, byte) in changes {
        bytes[*at] = *byte;
    }
    bytes
}

#[test]
fn the_job_of_document_01() {
    let job = Job::read(&BYTES).expect("accepted");
    assert_eq!(job.length(), 4);
    let top = [
        ins(8, 1, 0),
        ins(8, 2, 0),
        ins(8, 3, 0),
        ins(9, 0, 0),
        RETURN,
    ];
    let procedures = [
        procedure(255, &top),
        procedure(1, &[ins(1, 0, 10), RETURN]),
        procedure(2, &[ins(3, 0, 0), RETURN]),
        procedure(1, &[ins(1, 0, 20), RETURN]),
    ];
    assert_eq!(job.procedures(), procedures);
    assert_eq!(job.bytes(), BYTES);
    assert_eq!(write(4, &procedures), BYTES);
}

#[test]
fn refusal_10() {
    for length in 0..4 {
        assert_eq!(breach(&BYTES[..length], 10), ShorterThanHead);
    }
    assert_eq!(breach(&changed(&[(0, 0)]), 10), ProcedureNumber);
    assert_eq!(breach(&changed(&[(0, 65)]), 10), ProcedureNumber);
    assert_eq!(breach(&changed(&[(1, 1)]), 10), ProcedureNumber);
    assert_eq!(breach(&changed(&[(2, 0)]), 10), SegmentLength);
    assert_eq!(breach(&changed(&[(2, 65)]), 10), SegmentLength);
    assert_eq!(breach(&changed(&[(3, 1)]), 10), SegmentLength);
    for length in 4..28 {
        assert_eq!(breach(&BYTES[..length], 10), ShorterThanContents);
    }
    // 64 procedures need 388 bytes.
    assert_eq!(breach(&changed(&[(0, 64)]), 10), ShorterThanContents);
}

#[test]
fn refusal_11() {
    // Offsets: of the first body, of a later one, by the high byte.
    assert_eq!(breach(&changed(&[(4, 27)]), 11), BodyOffset);
    assert_eq!(breach(&changed(&[(16, 58)]), 11), BodyOffset);
    assert_eq!(breach(&changed(&[(23, 1)]), 11), BodyOffset);
    // Counts: none, one too many, by the high byte.
    assert_eq!(breach(&changed(&[(24, 0)]), 11), InstructionNumber);
    assert_eq!(breach(&changed(&[(24, 129)]), 11), InstructionNumber);
    assert_eq!(breach(&changed(&[(25, 1)]), 11), InstructionNumber);
    assert_eq!(breach(&changed(&[(9, 1)]), 11), EntryNotZero);
    assert_eq!(breach(&changed(&[(27, 128)]), 11), EntryNotZero);
    assert_eq!(breach(&changed(&[(8, 3)]), 11), TopRights);
    assert_eq!(breach(&changed(&[(8, 254)]), 11), TopRights);
    // The end: short by one byte, long by one, a body that runs past it.
    for length in 28..94 {
        assert_eq!(breach(&BYTES[..length], 11), TotalLength);
    }
    let longer = [&BYTES[..], &[0]].concat();
    assert_eq!(breach(&longer, 11), TotalLength);
    assert_eq!(breach(&changed(&[(24, 3)]), 11), TotalLength);
    assert_eq!(breach(&changed(&[(24, 1)]), 11), TotalLength);
}

/// A job of a top, and a child with rights 1 (push to queue 0) whose first
/// instruction is given.
fn child(instruction: Instruction) -> Vec<u8> {
    write(
        4,
        &[
            procedure(255, &[ins(8, 1, 0), RETURN]),
            procedure(1, &[instruction, RETURN]),
        ],
    )
}

/// A job of a top alone whose first instruction is given.
fn top(instruction: Instruction) -> Vec<u8> {
    write(4, &[procedure(255, &[instruction, RETURN])])
}

#[test]
fn refusal_12_operation() {
    for operation in 11..=255 {
        assert_eq!(breach(&top(ins(operation, 0, 0)), 12), NoSuchOperation);
    }
}

#[test]
fn refusal_12_unused_fields() {
    for operation in [0, 5, 6, 7, 9] {
        for which in [1, 255] {
            assert_eq!(breach(&top(ins(operation, which, 0)), 12), WhichNotZero);
        }
    }
    for operation in [0, 3, 9] {
        for operand in [1, 256, 1 << 16, 1 << 24] {
            assert_eq!(breach(&top(ins(operation, 0, operand)), 12), OperandNotZero);
        }
    }
}

#[test]
fn refusal_12_queues_and_rights() {
    for operation in [1, 2, 3, 4, 10] {
        for queue in [4, 255] {
            assert_eq!(breach(&top(ins(operation, queue, 0)), 12), NoSuchQueue);
        }
        for queue in 0..4 {
            assert!(Job::read(&top(ins(operation, queue, 0))).is_ok());
            let held = operation <= 2 && queue == 0;
            let bytes = child(ins(operation, queue, 0));
            if held {
                assert!(Job::read(&bytes).is_ok());
            } else {
                assert_eq!(breach(&bytes, 12), RightNotHeld);
            }
        }
    }
}

/// Each bit of a byte of rights lets one kind of operation touch one queue.
#[test]
fn each_right_by_its_bit() {
    for bit in 0..8 {
        for operation in [1, 2, 3, 4, 10] {
            for queue in 0..4 {
                let body = [ins(operation, queue, 0), RETURN];
                let bytes = write(1, &[procedure(255, &[RETURN]), procedure(1 << bit, &body)]);
                let held = bit == 2 * queue + u8::from(operation >= 3);
                assert_eq!(Job::read(&bytes).is_ok(), held);
            }
        }
    }
}

#[test]
fn refusal_12_spawns() {
    for which in [1, 2, 64, 255] {
        assert_eq!(breach(&top(ins(8, which, 0)), 12), NoSuchProcedure);
    }
    assert_eq!(breach(&child(ins(8, 2, 0)), 12), NoSuchProcedure);
    assert_eq!(breach(&child(ins(8, 0, 0)), 12), ChildGivenMore);
    // A procedure may spawn itself; the top may be spawned where all rights are held.
    assert!(Job::read(&child(ins(8, 1, 7))).is_ok());
    assert!(Job::read(&top(ins(8, 0, u32::MAX))).is_ok());
    // Rights 3 under rights 1.
    let bytes = write(
        4,
        &[
            procedure(255, &[RETURN]),
            procedure(1, &[ins(8, 2, 0), RETURN]),
            procedure(3, &[RETURN]),
        ],
    );
    assert_eq!(breach(&bytes, 12), ChildGivenMore);
}

#[test]
fn refusal_12_goes_nowhere() {
    for operation in [4, 5, 6, 10] {
        for target in [2, 3, 256, 65_536, u32::MAX] {
            assert_eq!(breach(&top(ins(operation, 0, target)), 12), GoesNowhere);
        }
        for target in [0, 1] {
            assert!(Job::read(&top(ins(operation, 0, target))).is_ok());
        }
    }
}

#[test]
fn refusal_12_last_instruction() {
    for operation in 0..11 {
        let bytes = write(4, &[procedure(255, &[ins(operation, 0, 0)])]);
        if operation == 0 || operation == 5 {
            assert!(Job::read(&bytes).is_ok());
        } else {
            assert_eq!(breach(&bytes, 12), WrongLast);
        }
    }
}

/// 10 goes before 11, and 11 before 12, wherever the breaches stand.
#[test]
fn order_of_refusals() {
    let wrong_instruction = (28, 11);
    let wrong_entry = (27, 1);
    let wrong_head = (2, 65);
    assert_eq!(breach(&changed(&[wrong_instruction]), 12), NoSuchOperation);
    let both = [wrong_instruction, wrong_entry];
    assert_eq!(breach(&changed(&both), 11), EntryNotZero);
    let all = [wrong_instruction, wrong_entry, wrong_head];
    assert_eq!(breach(&changed(&all), 10), SegmentLength);
    let mut longer = changed(&[wrong_instruction]);
    longer.push(0);
    assert_eq!(breach(&longer, 11), TotalLength);
    longer[2] = 0;
    assert_eq!(breach(&longer, 10), SegmentLength);
}

/// Instructions that are never reached, and procedures that are never spawned,
/// are tested too.
#[test]
fn unreached_instructions_are_tested() {
    let unreached = [RETURN, ins(11, 0, 0), RETURN];
    assert_eq!(
        breach(&write(4, &[procedure(255, &unreached)]), 12),
        NoSuchOperation
    );
    let bytes = write(
        4,
        &[
            procedure(255, &[RETURN]),
            procedure(0, &[ins(1, 0, 0), RETURN]),
        ],
    );
    let refusal = Job::read(&bytes).expect_err("refused");
    assert_eq!((refusal.procedure, refusal.instruction), (Some(1), Some(0)));
    assert_eq!(
        refusal.to_string(),
        "procedure 1, instruction 0, the procedure lacks that right on the queue"
    );
}

/// The largest and the smallest job.
#[test]
fn sizes() {
    let mut body = vec![ins(9, 0, 0); 127];
    body.push(ins(5, 0, 127));
    let bytes = write(64, &vec![procedure(255, &body); 64]);
    assert_eq!(bytes.len(), 49_540);
    assert!(Job::read(&bytes).is_ok());
    body.push(RETURN);
    assert_eq!(
        breach(&write(64, &[procedure(255, &body)]), 11),
        InstructionNumber
    );
    let smallest = write(1, &[procedure(255, &[RETURN])]);
    assert_eq!(smallest.len(), 16);
    assert!(Job::read(&smallest).is_ok());
}
