//! What the word at an address is, in words (docs/LAYOUT.md).

use crate::layout::*;
use crate::runner::RECORD;

const HEADER: [&str; 4] = ["L", "segments opened", "free segments", "free tasks"];
const SEGMENT: [&str; SEGMENT_WORDS] = ["first place", "count", "next", "spare"];
const TASK: [&str; 6] = ["status", "rights", "parent", "older", "younger", "youngest"];
/// From word 16 of a task record on, four words each.
const VIEWS: [&str; 7] = [
    "queue head",
    "children head",
    "user head",
    "right head",
    "children tail",
    "user tail",
    "right tail",
];
const RUNNER_WORDS: [&str; RECORD] = ["procedure", "instruction", "register"];

/// A word of the core's memory.
pub fn core_word(address: usize) -> String {
    match address {
        0..SEGMENT_STACK => format!("header, {}", HEADER.get(address).unwrap_or(&"spare")),
        SEGMENT_STACK..TASK_STACK => format!("free segments, place {}", address - SEGMENT_STACK),
        TASK_STACK..SEGMENT_RECORDS => format!("free tasks, place {}", address - TASK_STACK),
        SEGMENT_RECORDS..TASK_RECORDS => {
            let place = address - SEGMENT_RECORDS;
            let (s, word) = (place / SEGMENT_WORDS, place % SEGMENT_WORDS);
            format!("segment {s}, {}", SEGMENT[word])
        }
        TASK_RECORDS..7_616 => {
            let place = address - TASK_RECORDS;
            format!(
                "task {}, {}",
                place / TASK_WORDS,
                of_task(place % TASK_WORDS)
            )
        }
        7_616..VALUES => "spare".to_string(),
        _ => format!("value {}", address - VALUES),
    }
}

fn of_task(word: usize) -> String {
    let view = word.wrapping_sub(QUEUE_HEADS);
    match (TASK.get(word), VIEWS.get(view / 4)) {
        (Some(name), _) => name.to_string(),
        (_, Some(name)) => format!("{name} of queue {}", view % 4),
        _ => "spare".to_string(),
    }
}

/// A word of the runner's memory.
pub fn runner_word(address: usize) -> String {
    format!(
        "task {}, {}",
        address / RECORD,
        RUNNER_WORDS[address % RECORD]
    )
}

#[cfg(test)]
mod tests {
    use super::*;

    #[test]
    fn words() {
        assert_eq!(core_word(FREE_TASKS), "header, free tasks");
        assert_eq!(core_word(segment(5) + NEXT), "segment 5, next");
        assert_eq!(core_word(task(3) + YOUNGEST), "task 3, youngest");
        assert_eq!(core_word(task(3) + 6), "task 3, spare");
        let tail = user_view(127, 2) + TAIL_FROM_HEAD;
        assert_eq!(core_word(tail), "task 127, user tail of queue 2");
        assert_eq!(core_word(task(3) + 44), "task 3, spare");
        assert_eq!(runner_word(383), "task 127, register");
    }
}
