//! Takes on typical memory, which are timed and counted.

use crate::scenes;
use host::answer::Answer;
use host::call::Call;
use host::layout::{get, FREE_SEGMENTS};

pub struct TakeScene {
    pub name: &'static str,
    pub memory: Vec<u32>,
}

/// The second stage takes from the first queue what a helper of the first pushes.
const STAGE: u32 = 2;
const HELPER: u32 = 6;

/// Takes in a row.
pub const IN_A_ROW: usize = 8;

impl TakeScene {
    pub fn take(&self, keep: bool) -> Call {
        let (task, queue) = (STAGE, 0);
        Call::Take { task, queue, keep }
    }

    /// The words after a take on the model, which finds a value.
    fn after(&self) -> Vec<u32> {
        let mut words = self.memory.clone();
        let answer = self.take(false).make(&mut words);
        assert!(matches!(answer, Answer::Moved(_)), "{}", self.name);
        words
    }

    fn frees(&self) -> bool {
        get(&self.after(), FREE_SEGMENTS) > get(&self.memory, FREE_SEGMENTS)
    }
}

fn typical() -> Vec<u32> {
    let all = scenes::all();
    let typical = all.iter().find(|scene| scene.name == "typical");
    typical.expect("a scene of that name").memory()
}

/// Typical memory with more values in the queue, so that as many takes find one.
pub fn in_a_row() -> TakeScene {
    let mut memory = typical();
    let more = Call::push(HELPER, 0, &[1_000; IN_A_ROW]);
    assert!(more.make(&mut memory).moved(), "there is room");
    let name = "a value of several";
    TakeScene { name, memory }
}

/// A value of a segment that has more of them; and the last one of a segment,
/// which is freed.
pub fn all() -> [TakeScene; 2] {
    let value = TakeScene {
        name: "a value",
        memory: typical(),
    };
    assert!(!value.frees(), "a segment holds more than one value");
    let mut last = TakeScene {
        name: "the last of a segment",
        memory: value.memory.clone(),
    };
    while !last.frees() {
        last.memory = last.after();
    }
    [value, last]
}

#[cfg(test)]
mod tests {
    use super::*;

    #[test]
    fn takes_in_a_row_find_values() {
        let scene = in_a_row();
        let mut words = scene.memory.clone();
        for _ in 0..IN_A_ROW {
            let answer = scene.take(false).make(&mut words);
            assert!(matches!(answer, Answer::Moved(_)));
        }
    }
}
