//! Random damage: a few words of a memory changed to words that look likely
//! there, so that some of the damaged memories still pass.

use crate::layout::*;
use crate::random::Random;
use crate::sample::any_word;

/// Changes one to four words.
pub fn damage(r: &mut Random, m: &mut [u32]) {
    for _ in 0..r.within(1, 4) {
        let address = some_address(r, m);
        if r.chance(25) {
            // Two words of the same kind exchanged.
            let other = same_kind(r, m, address);
            let (a, b) = (get(m, address), get(m, other));
            put(m, address, b);
            put(m, other, a);
        } else {
            let word = some_word(r, m, address);
            put(m, address, word);
        }
    }
}

/// A task, mostly an unfinished one.
pub fn some_task(r: &mut Random, m: &[u32]) -> u32 {
    let tries: Vec<u32> = (0..6).map(|_| r.below(TASKS)).collect();
    let unfinished = tries.iter().find(|t| status(m, **t) == UNFINISHED);
    let low = r.below(8);
    *unfinished.unwrap_or(&low)
}

fn some_address(r: &mut Random, m: &[u32]) -> usize {
    let s = r.below(segments(m).clamp(1, MOST_SEGMENTS));
    match r.below(20) {
        0 => r.below(5) as usize,
        1 => segment_place(s),
        2 => task_place(r.below(TASKS)),
        3..=6 => segment(s) + r.below(4) as usize,
        7..=9 => task(some_task(r, m)) + r.below(7) as usize,
        10..=18 => task(some_task(r, m)) + QUEUE_HEADS + r.below(28) as usize,
        _ => r.below(WORDS as u32) as usize,
    }
}

/// An address with the same meaning, of another task, segment or view.
fn same_kind(r: &mut Random, m: &[u32], address: usize) -> usize {
    match address {
        SEGMENT_RECORDS..TASK_RECORDS => {
            let s = r.below(segments(m).clamp(1, MOST_SEGMENTS));
            segment(s) + (address - SEGMENT_RECORDS) % SEGMENT_WORDS
        }
        TASK_RECORDS..7_616 => {
            let word = (address - TASK_RECORDS) % TASK_WORDS;
            let view = (QUEUE_HEADS..QUEUE_HEADS + 28).contains(&word) && r.chance(50);
            let kind = if view {
                16 + 4 * r.below(7) as usize
            } else {
                word
            };
            task(some_task(r, m)) + kind
        }
        _ => some_address(r, m),
    }
}

fn some_word(r: &mut Random, m: &[u32], address: usize) -> u32 {
    let now = get(m, address);
    match r.below(12) {
        0..=2 => NONE,
        3..=4 => NL,
        5..=6 => r.below(segments(m).clamp(1, MOST_SEGMENTS)),
        7 => r.below(TASKS),
        8 => r.below(3),
        9 => now.wrapping_add(1),
        10 => now.wrapping_sub(1),
        _ => r.word(),
    }
}

/// One to four words changed to any words.
pub fn plain_damage(r: &mut Random, m: &mut [u32]) {
    for _ in 0..r.within(1, 4) {
        // The last half are values, of which the rules say nothing.
        let most = r.pick(&[448, 1_472, 8_192, WORDS as u32]);
        let address = r.below(most) as usize;
        let word = any_word(r);
        put(m, address, word);
    }
}
