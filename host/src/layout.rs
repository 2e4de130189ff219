//! Where each word of the core's memory stands (docs/LAYOUT.md).

/// Words of the core's memory.
pub const WORDS: usize = 16_384;
/// Queues are 0 to 3.
pub const QUEUES: u32 = 4;
/// Task records are 0 to 127.
pub const TASKS: u32 = 128;
/// Most values a segment may hold.
pub const MOST_LENGTH: u32 = 64;
/// Fewest segments to open with: one for each queue.
pub const FEWEST_SEGMENTS: u32 = 4;
/// Most segments to open with.
pub const MOST_SEGMENTS: u32 = 256;
/// Words of the value area.
pub const VALUE_WORDS: u32 = 8_192;
/// Rights of the top task.
pub const ALL_RIGHTS: u32 = 255;
/// The pop bits of all four queues.
pub const POP_RIGHTS: u32 = 0b1010_1010;

/// No task, no segment; both words of an empty view.
pub const NONE: u32 = u32::MAX;
/// The non-local end of a view.
pub const NL: u32 = u32::MAX - 1;

// Header.
pub const LENGTH: usize = 0;
pub const SEGMENTS: usize = 1;
pub const FREE_SEGMENTS: usize = 2;
pub const FREE_TASKS: usize = 3;

// Areas.
pub const SEGMENT_STACK: usize = 64;
pub const TASK_STACK: usize = 320;
pub const SEGMENT_RECORDS: usize = 448;
pub const TASK_RECORDS: usize = 1_472;
pub const VALUES: usize = 8_192;

// Words of a segment record.
pub const SEGMENT_WORDS: usize = 4;
pub const FIRST: usize = 0;
pub const COUNT: usize = 1;
pub const NEXT: usize = 2;

// Words of a task record.
pub const TASK_WORDS: usize = 48;
pub const STATUS: usize = 0;
pub const RIGHTS: usize = 1;
pub const PARENT: usize = 2;
pub const OLDER: usize = 3;
pub const YOUNGER: usize = 4;
pub const YOUNGEST: usize = 5;
pub const QUEUE_HEADS: usize = 16;
pub const CHILDREN_HEADS: usize = 20;
pub const USER_HEADS: usize = 24;
pub const RIGHT_HEADS: usize = 28;
/// From a view's head word to its tail word.
pub const TAIL_FROM_HEAD: usize = 12;

// What the status word says.
pub const FREE: u32 = 0;
pub const UNFINISHED: u32 = 1;
pub const FINISHED: u32 = 2;

/// Word `a`, or 0 past the end.
pub fn get(m: &[u32], a: usize) -> u32 {
    m.get(a).copied().unwrap_or(0)
}

/// Sets word `a`; past the end nothing happens.
pub fn put(m: &mut [u32], a: usize, word: u32) {
    if let Some(place) = m.get_mut(a) {
        *place = word;
    }
}

/// Sets the words from `a` on; if there are fewer nothing happens.
pub fn put_all(m: &mut [u32], a: usize, words: &[u32]) {
    if let Some(places) = m.get_mut(a..a + words.len()) {
        places.copy_from_slice(words);
    }
}

/// Place `i` of the stack of free segments.
pub fn segment_place(i: u32) -> usize {
    SEGMENT_STACK + i as usize
}

/// Place `i` of the stack of free task records.
pub fn task_place(i: u32) -> usize {
    TASK_STACK + i as usize
}

/// Start of the record of segment `s`.
pub fn segment(s: u32) -> usize {
    SEGMENT_RECORDS + SEGMENT_WORDS * s as usize
}

/// Start of the record of task `t`.
pub fn task(t: u32) -> usize {
    TASK_RECORDS + TASK_WORDS * t as usize
}

/// Head word of the queue view.
pub fn queue_head(t: u32, q: u32) -> usize {
    task(t) + QUEUE_HEADS + q as usize
}

/// Head word of the children view; its tail stands `TAIL_FROM_HEAD` further.
pub fn children_view(t: u32, q: u32) -> usize {
    task(t) + CHILDREN_HEADS + q as usize
}

/// Head word of the user view.
pub fn user_view(t: u32, q: u32) -> usize {
    task(t) + USER_HEADS + q as usize
}

/// Head word of the right view.
pub fn right_view(t: u32, q: u32) -> usize {
    task(t) + RIGHT_HEADS + q as usize
}

/// Place `i` of the values of segment `s`, with segments of `length` values.
pub fn value_place(s: u32, length: u32, i: u32) -> usize {
    VALUES + s as usize * length as usize + i as usize
}

pub fn length(m: &[u32]) -> u32 {
    get(m, LENGTH)
}

pub fn segments(m: &[u32]) -> u32 {
    get(m, SEGMENTS)
}

pub fn first(m: &[u32], s: u32) -> u32 {
    get(m, segment(s) + FIRST)
}

pub fn count(m: &[u32], s: u32) -> u32 {
    get(m, segment(s) + COUNT)
}

pub fn next(m: &[u32], s: u32) -> u32 {
    get(m, segment(s) + NEXT)
}

pub fn status(m: &[u32], t: u32) -> u32 {
    get(m, task(t) + STATUS)
}

pub fn rights(m: &[u32], t: u32) -> u32 {
    get(m, task(t) + RIGHTS)
}

pub fn parent(m: &[u32], t: u32) -> u32 {
    get(m, task(t) + PARENT)
}

pub fn older(m: &[u32], t: u32) -> u32 {
    get(m, task(t) + OLDER)
}

pub fn younger(m: &[u32], t: u32) -> u32 {
    get(m, task(t) + YOUNGER)
}

pub fn youngest(m: &[u32], t: u32) -> u32 {
    get(m, task(t) + YOUNGEST)
}

/// The push bit of queue `q`.
pub fn push_right(q: u32) -> u32 {
    1 << (2 * q)
}

/// The pop bit of queue `q`.
pub fn pop_right(q: u32) -> u32 {
    2 << (2 * q)
}

/// Both bits of queue `q`.
pub fn any_right(q: u32) -> u32 {
    3 << (2 * q)
}

#[cfg(test)]
mod tests {
    use super::*;

    #[test]
    fn areas_meet() {
        assert_eq!(segment_place(MOST_SEGMENTS), TASK_STACK);
        assert_eq!(task_place(TASKS), SEGMENT_RECORDS);
        assert_eq!(segment(MOST_SEGMENTS), TASK_RECORDS);
        assert_eq!(task(TASKS), 7_616);
        assert_eq!(VALUES + VALUE_WORDS as usize, WORDS);
    }

    #[test]
    fn words_past_the_end() {
        let mut m = [7, 8];
        put(&mut m, 2, 9);
        assert_eq!((get(&m, 1), get(&m, 2), m), (8, 0, [7, 8]));
        put_all(&mut m, 1, &[5, 6]);
        assert_eq!(m, [7, 8]);
        put_all(&mut m, 0, &[5, 6]);
        assert_eq!(m, [5, 6]);
    }
}
