//! Pushes of runs of values on memories of a known shape, which are timed and
//! counted.

use crate::scenes;
use host::answer::Answer;
use host::call::Call;
use host::layout::WORDS;

pub struct RunScene {
    pub name: &'static str,
    pub memory: Vec<u32>,
    pub values: Vec<u32>,
    task: u32,
}

impl RunScene {
    /// So many values to queue 0.
    fn of(name: &'static str, memory: Vec<u32>, task: u32, number: u32) -> RunScene {
        let scene = RunScene {
            name,
            memory,
            values: (1_000..1_000 + number).collect(),
            task,
        };
        let answer = scene.push().make(&mut scene.memory.clone());
        assert_eq!(answer, Answer::Moved(999 + number), "{name}");
        scene
    }

    /// The run in one push.
    pub fn push(&self) -> Call {
        Call::push(self.task, 0, &self.values)
    }

    /// A push of each value.
    pub fn pushes(&self) -> Vec<Call> {
        let push = |value: &u32| Call::push(self.task, 0, &[*value]);
        self.values.iter().map(push).collect()
    }
}

/// A run on typical memory, where segments hold four values.
fn on_typical(name: &'static str, number: u32) -> RunScene {
    let all = scenes::all();
    let typical = all.iter().find(|scene| scene.name == "typical");
    let memory = typical.expect("a scene of that name").memory();
    RunScene::of(name, memory, 6, number)
}

pub fn one() -> RunScene {
    on_typical("1 value", 1)
}

/// A block of the cutter.
pub fn block() -> RunScene {
    on_typical("40 values", 40)
}

/// A long run into segments of 64 values.
pub fn long() -> RunScene {
    let open = Call::Open {
        length: 64,
        segments: 128,
    };
    let mut memory = vec![0; WORDS];
    open.make(&mut memory);
    RunScene::of("4,096 values", memory, 0, 4_096)
}
