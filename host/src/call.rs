//! A call of the core as a value, so that it can be made, shown and compared.

use crate::answer::Answer;
use crate::calls;
use std::fmt;

#[derive(Clone, Debug, PartialEq, Eq)]
pub enum Call {
    Open {
        length: u32,
        segments: u32,
    },
    Spawn {
        task: u32,
        rights: u32,
    },
    /// A run of values, which may have none.
    Push {
        task: u32,
        queue: u32,
        values: Vec<u32>,
    },
    /// The first value of a queue, which stays queued with `keep`.
    Take {
        task: u32,
        queue: u32,
        keep: bool,
    },
    Sync {
        task: u32,
    },
    Finish {
        task: u32,
    },
    Left {
        queue: u32,
        index: u32,
    },
}

/// So many values of a run are shown.
const SHOWN: usize = 8;

impl Call {
    pub fn push(task: u32, queue: u32, values: &[u32]) -> Call {
        let values = values.to_vec();
        Call::Push {
            task,
            queue,
            values,
        }
    }

    /// The task, the queue and the values of a push.
    pub fn as_push(&self) -> Option<(u32, u32, &[u32])> {
        match self {
            Call::Push {
                task,
                queue,
                values,
            } => Some((*task, *queue, values)),
            _ => None,
        }
    }

    /// The task and the queue of a take, and whether the value is kept.
    pub fn as_take(&self) -> Option<(u32, u32, bool)> {
        match *self {
            Call::Take { task, queue, keep } => Some((task, queue, keep)),
            _ => None,
        }
    }

    /// Makes the call on the core's memory.
    pub fn make(&self, m: &mut [u32]) -> Answer {
        match *self {
            Call::Open { length, segments } => calls::open(m, length, segments),
            Call::Spawn { task, rights } => calls::spawn(m, task, rights),
            Call::Push {
                task,
                queue,
                ref values,
            } => calls::push(m, task, queue, values),
            Call::Take { task, queue, keep } => calls::take(m, task, queue, keep),
            Call::Sync { task } => calls::sync(m, task),
            Call::Finish { task } => calls::finish(m, task),
            Call::Left { queue, index } => calls::left(m, queue, index),
        }
    }
}

/// A run in words: its values, of a long one the first.
fn run_text(values: &[u32]) -> String {
    if values.is_empty() {
        return "no value".to_string();
    }
    let shown = values.iter().take(SHOWN).map(|value| format!(" {value}"));
    let text = format!("values{}", shown.collect::<String>());
    match values.len().saturating_sub(SHOWN) {
        0 => text,
        more => format!("{text} and {more} more"),
    }
}

impl fmt::Display for Call {
    fn fmt(&self, f: &mut fmt::Formatter) -> fmt::Result {
        let text = match self {
            Call::Open { length, segments } => format!("open(L {length}, segments {segments})"),
            Call::Spawn { task, rights } => format!("spawn(task {task}, rights {rights})"),
            Call::Push {
                task,
                queue,
                values,
            } => {
                format!("push(task {task}, queue {queue}, {})", run_text(values))
            }
            Call::Take { task, queue, keep } => {
                let kept = if *keep { ", keep" } else { "" };
                format!("take(task {task}, queue {queue}{kept})")
            }
            Call::Sync { task } => format!("sync(task {task})"),
            Call::Finish { task } => format!("finish(task {task})"),
            Call::Left { queue, index } => format!("left(queue {queue}, index {index})"),
        };
        // Padded, so that the lines of a run can stand in columns.
        f.pad(&text)
    }
}

#[cfg(test)]
mod tests {
    use super::*;

    #[test]
    fn runs_in_words() {
        let long: Vec<u32> = (1..41).collect();
        for (values, due) in [
            (&[][..], "push(task 3, queue 1, no value)"),
            (&[5, 6], "push(task 3, queue 1, values 5 6)"),
            (
                &long,
                "push(task 3, queue 1, values 1 2 3 4 5 6 7 8 and 32 more)",
            ),
        ] {
            assert_eq!(Call::push(3, 1, values).to_string(), due);
        }
    }

    #[test]
    fn takes_in_words() {
        for (keep, due) in [
            (false, "take(task 3, queue 1)"),
            (true, "take(task 3, queue 1, keep)"),
        ] {
            let (task, queue) = (3, 1);
            assert_eq!(Call::Take { task, queue, keep }.to_string(), due);
        }
    }
}
