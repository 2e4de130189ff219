//! Memories of a known shape, as the calls that lead to them, each with a list
//! of calls that can be made over and over.

use host::answer::Answer;
use host::call::Call;
use host::layout::*;

pub struct Scene {
    pub name: &'static str,
    /// From the opening to the memory.
    pub start: Vec<Call>,
    /// Leaves as many tasks and, in the long run, as many values as it finds.
    pub again: Vec<Call>,
}

pub fn all() -> Vec<Scene> {
    let deep = Scene {
        name: "deep",
        ..levels(127)
    };
    let full = Scene {
        name: "full",
        ..held(256)
    };
    vec![fresh(), typical(), wide(), deep, full]
}

/// Three shapes of growing size.
pub fn growing() -> Vec<Scene> {
    let tasks = [1, 16, 32, 64, 127];
    let wide = tasks.into_iter().map(children);
    let deep = tasks.into_iter().map(levels);
    let full = [4, 16, 64, 128, 256].into_iter().map(held);
    wide.chain(deep).chain(full).collect()
}

impl Scene {
    /// Memory after the start, made on the model.
    pub fn memory(&self) -> Vec<u32> {
        let mut m = vec![0; WORDS];
        for call in &self.start {
            assert!(call.make(&mut m).moved(), "{}: {call}", self.name);
        }
        m
    }
}

/// How many tasks are unfinished.
pub fn unfinished_tasks(m: &[u32]) -> u32 {
    (0..TASKS).filter(|t| status(m, *t) == UNFINISHED).count() as u32
}

pub fn held_segments(m: &[u32]) -> u32 {
    segments(m) - get(m, FREE_SEGMENTS)
}

fn open(length: u32, segments: u32) -> Call {
    Call::Open { length, segments }
}

fn spawn(task: u32, rights: u32) -> Call {
    Call::Spawn { task, rights }
}

fn push(task: u32, queue: u32) -> Call {
    Call::push(task, queue, &[1_000 + task])
}

fn take(task: u32, queue: u32) -> Call {
    let keep = false;
    Call::Take { task, queue, keep }
}

fn peek(task: u32, queue: u32) -> Call {
    let keep = true;
    Call::Take { task, queue, keep }
}

fn sync(task: u32) -> Call {
    Call::Sync { task }
}

fn finish(task: u32) -> Call {
    Call::Finish { task }
}

/// Adds these pushes in turn until so many segments are held.
fn hold(start: &mut Vec<Call>, pushes: &[Call], due: u32) {
    let mut m = vec![0; WORDS];
    for call in start.iter() {
        call.make(&mut m);
    }
    for call in pushes.iter().cycle() {
        if held_segments(&m) == due {
            return;
        }
        assert!(matches!(call.make(&mut m), Answer::Moved(_)));
        start.push(call.clone());
    }
}

/// Just opened: the top and one child that comes and goes.
fn fresh() -> Scene {
    let again = vec![
        push(0, 0),
        peek(0, 0),
        take(0, 0),
        spawn(0, ALL_RIGHTS),
        push(1, 1),
        sync(1),
        finish(1),
        sync(0),
        take(0, 1),
    ];
    Scene {
        name: "fresh",
        start: vec![open(4, 64)],
        again,
    }
}

/// Four stages joined by four queues, two helpers of the first one: 8
/// unfinished tasks, 16 held segments.
fn typical() -> Scene {
    let stages = [1, 2 | 4, 8 | 16, 32 | 64, 128];
    let mut start = vec![open(4, 64)];
    start.extend(stages.map(|rights| spawn(0, rights)));
    start.extend([spawn(1, 1), spawn(1, 1)]);
    let pushes = [push(6, 0), push(2, 1), push(3, 2), push(4, 3)];
    hold(&mut start, &pushes, 16);
    let mut again = Vec::new();
    for (call, queue) in pushes.into_iter().zip(0..) {
        again.extend([call, take(queue + 2, queue)]);
    }
    again.extend([peek(5, 3), spawn(6, 1), finish(8), sync(7)]);
    Scene {
        name: "typical",
        start,
        again,
    }
}

/// 126 children that push and a youngest one that takes.
fn wide() -> Scene {
    let mut start = vec![open(4, 64)];
    start.extend((1..127).map(|_| spawn(0, 1)));
    start.push(spawn(0, 2));
    let again = vec![
        push(1, 0),
        peek(127, 0),
        take(127, 0),
        take(127, 0),
        sync(126),
        finish(127),
        spawn(0, 2),
    ];
    Scene {
        name: "wide",
        start,
        again,
    }
}

/// So many children that push; the top takes.
fn children(number: u32) -> Scene {
    let mut start = vec![open(4, 64)];
    start.extend((0..number).map(|_| spawn(0, 1)));
    let again = vec![
        push(1, 0),
        peek(0, 0),
        take(0, 0),
        take(0, 0),
        sync(number),
        finish(number),
        spawn(0, 1),
    ];
    Scene {
        name: "children",
        start,
        again,
    }
}

/// So many levels below the top, all with all rights.
fn levels(number: u32) -> Scene {
    let mut start = vec![open(4, 64)];
    start.extend((0..number).map(|task| spawn(task, ALL_RIGHTS)));
    let again = vec![
        push(number, 0),
        peek(number, 0),
        take(number, 0),
        take(0, 0),
        sync(number),
        finish(number),
        spawn(number - 1, ALL_RIGHTS),
    ];
    Scene {
        name: "levels",
        start,
        again,
    }
}

/// So many segments opened, all held. A take goes before each push, so that a
/// segment is free when one is needed.
fn held(number: u32) -> Scene {
    let pushes = [push(0, 0), push(0, 1), push(0, 2), push(0, 3)];
    let mut start = vec![open(8, number)];
    start.extend(pushes.clone());
    hold(&mut start, &pushes, number);
    let mut again = Vec::new();
    for (call, queue) in pushes.into_iter().zip(0..) {
        again.extend([take(0, queue), call, peek(0, queue)]);
    }
    again.push(sync(0));
    Scene {
        name: "segments",
        start,
        again,
    }
}

#[cfg(test)]
mod tests {
    use super::*;

    #[test]
    fn shapes() {
        let due = [(1, 4), (8, 16), (128, 4), (128, 4), (1, 256)];
        for (scene, (tasks, held)) in all().iter().zip(due) {
            let m = scene.memory();
            assert_eq!(unfinished_tasks(&m), tasks, "{}", scene.name);
            assert_eq!(held_segments(&m), held, "{}", scene.name);
        }
    }

    /// No call of the repeated list is refused, however often it is made.
    #[test]
    fn again_and_again() {
        for scene in all().into_iter().chain(growing()) {
            let mut m = scene.memory();
            for _ in 0..200 {
                for call in &scene.again {
                    let answer = call.make(&mut m);
                    let refused = matches!(answer, Answer::Refused(_));
                    assert!(!refused, "{}: {call} {answer:?}", scene.name);
                }
            }
        }
    }
}
