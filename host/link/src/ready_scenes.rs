//! Jobs for the ready map: as many tasks as wanted in a tree of a known shape,
//! each about to make the call that the map asks most about.

use host::asm::assemble;
use host::layout::WORDS;
use host::runner::{self, RUNNER};

pub struct ReadyScene {
    pub name: &'static str,
    pub tasks: u32,
    pub job: Vec<u8>,
    pub core: Vec<u32>,
    pub words: Vec<u32>,
}

/// Five shapes of growing size.
pub fn growing() -> Vec<ReadyScene> {
    let sizes = [2, 17, 33, 65, 128];
    let shapes = [children, finishing, returning, families, levels];
    let scenes = shapes.into_iter().flat_map(|shape| sizes.map(shape));
    scenes.collect()
}

/// The job after these steps, which all move.
fn scene(name: &'static str, tasks: u32, text: &str, steps: Vec<u32>) -> ReadyScene {
    let job = assemble(text).expect("the job assembles");
    let (mut core, mut words) = (vec![0; WORDS], vec![0; RUNNER]);
    runner::open(&job, &mut core, &mut words);
    for t in steps {
        let answer = runner::step(&job, &mut core, &mut words, t);
        assert!(answer.moved(), "{name}: {t} {answer:?}");
    }
    ReadyScene {
        name,
        tasks,
        job,
        core,
        words,
    }
}

/// A job whose top spawns these many children with the rights and the body.
fn below_top(children: u32, rights: &str, body: &str) -> String {
    let spawns = "spawn child 0\n".repeat(children as usize);
    format!("length 4\nprocedure top all\n{spawns}return\nprocedure child {rights}\n{body}return\n")
}

/// Children of the top, each about to push.
fn children(tasks: u32) -> ReadyScene {
    let text = below_top(tasks - 1, "push 0", "push 0 7\n");
    let steps = vec![0; tasks as usize - 1];
    scene("children", tasks, &text, steps)
}

/// Children of the top, each about to finish.
fn finishing(tasks: u32) -> ReadyScene {
    let text = below_top(tasks - 1, "push 0 push 1 push 2 push 3", "");
    let steps = vec![0; tasks as usize - 1];
    scene("finishing", tasks, &text, steps)
}

/// Children of the top, each about to finish with a value to return.
fn returning(tasks: u32) -> ReadyScene {
    let text = below_top(tasks - 1, "push 0", "push 0 7\n");
    let mut steps = vec![0; tasks as usize - 1];
    steps.extend(1..tasks);
    scene("returning", tasks, &text, steps)
}

/// Children of the top, each with a child about to push; one without where the
/// number of tasks is even.
fn families(tasks: u32) -> ReadyScene {
    let parents = tasks / 2;
    let text = below_top(parents, "push 0", "spawn heir 0\npush 0 7\n");
    let text = text + "procedure heir push 0\npush 0 7\nreturn\n";
    let mut steps = vec![0; parents as usize];
    steps.extend(1..tasks - parents);
    scene("families", tasks, &text, steps)
}

/// A chain from the top down, each task about to pop.
fn levels(tasks: u32) -> ReadyScene {
    let text = "length 4\nprocedure top all\nspawn top 0\npop 0\nreturn\n";
    scene("levels", tasks, text, (0..tasks - 1).collect())
}

#[cfg(test)]
mod tests {
    use super::*;
    use crate::linked_runner::{self, map_words};
    use crate::scenes::unfinished_tasks;

    #[test]
    fn shapes() {
        for scene in growing() {
            assert_eq!(unfinished_tasks(&scene.core), scene.tasks, "{}", scene.name);
        }
    }

    /// The library's map is the model's.
    #[test]
    fn maps() {
        for ReadyScene {
            name,
            job,
            core,
            words,
            ..
        } in growing()
        {
            let (answer, map) = runner::ready(&job, &core, &words);
            let mut out = [0; 6];
            let given = linked_runner::ready(&job, &core, &words, &mut out);
            assert_eq!(given, linked_runner::packed(answer), "{name}");
            assert_eq!(out, map_words(map), "{name}");
        }
    }
}
