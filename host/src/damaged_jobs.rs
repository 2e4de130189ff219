//! Bytes that are nearly a job, or nothing like one, for the test of jobs. Some
//! of them pass it.

use crate::job::{ENTRY, HEAD, INSTRUCTION};
use crate::operations::{OPERATIONS, QUEUES};
use crate::random::Random;

/// Bytes of limits and just past them.
const LIMITS: [u8; 14] = [0, 1, 2, 3, 4, 5, 10, 11, 63, 64, 65, 128, 129, 255];

/// A job, damaged at random.
pub fn damaged(r: &mut Random, job: &[u8]) -> Vec<u8> {
    let mut bytes = job.to_vec();
    match r.below(20) {
        0 | 1 => bytes.truncate(r.below(job.len() as u32) as usize),
        2 | 3 => lengthen(r, &mut bytes),
        4 => bytes = noise(r, 300),
        5 => bytes = headed_noise(r),
        6..=8 => {
            for _ in 0..r.within(2, 8) {
                change(r, &mut bytes);
            }
        }
        _ => change(r, &mut bytes),
    }
    bytes
}

/// Up to `most` bytes of any kind.
fn noise(r: &mut Random, most: u32) -> Vec<u8> {
    (0..r.within(0, most)).map(|_| r.word() as u8).collect()
}

/// A head that may pass, and noise behind it.
fn headed_noise(r: &mut Random) -> Vec<u8> {
    let head = [r.within(0, 3) as u8, 0, r.within(0, 65) as u8, 0];
    [&head[..], &noise(r, 60)].concat()
}

/// Adds bytes at the end: any, or whole instructions of zeros.
fn lengthen(r: &mut Random, bytes: &mut Vec<u8>) {
    if r.chance(50) {
        bytes.extend(noise(r, 11));
        bytes.push(r.pick(&LIMITS));
    } else {
        let more = INSTRUCTION * r.within(1, 3) as usize;
        bytes.resize(bytes.len() + more, 0);
    }
}

/// Changes one byte, or one field of an instruction; nothing in no bytes.
fn change(r: &mut Random, bytes: &mut [u8]) {
    let Some(number) = bytes.first().copied() else {
        return;
    };
    let bodies = (HEAD + ENTRY * usize::from(number)).min(bytes.len());
    let at = if r.chance(40) {
        r.below(bodies as u32) as usize
    } else {
        r.below(bytes.len() as u32) as usize
    };
    if at >= bodies && r.chance(70) {
        let start = at - (at - bodies) % INSTRUCTION;
        field(r, &mut bytes[start..]);
    } else {
        bytes[at] = some_byte(r, bytes[at]);
    }
}

/// A byte in place of another.
fn some_byte(r: &mut Random, byte: u8) -> u8 {
    match r.below(4) {
        0 => r.word() as u8,
        1 => byte ^ 1 << r.below(8),
        2 => byte.wrapping_add(r.pick(&[1, 6, 250, 255])),
        _ => r.pick(&LIMITS),
    }
}

/// Gives the first instruction of the bytes another operation, another `which`
/// or another operand, near the limits of each.
fn field(r: &mut Random, bytes: &mut [u8]) {
    match r.below(3) {
        0 => bytes[0] = r.below(OPERATIONS.len() as u32 + 2) as u8,
        1 if bytes.len() > 1 => bytes[1] = r.below(u32::from(QUEUES) + 2) as u8,
        _ if bytes.len() >= INSTRUCTION => {
            let operand = match r.below(3) {
                0 => r.word(),
                _ => r.below(9),
            };
            bytes[2..INSTRUCTION].copy_from_slice(&operand.to_le_bytes());
        }
        _ => {}
    }
}
