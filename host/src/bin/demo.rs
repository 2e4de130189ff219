//! The run of document 01 at core level, one line a call: number, call, answer.

use host::answer::Answer;
use host::call::Call;
use host::layout::WORDS;

fn take(task: u32, queue: u32) -> Call {
    let keep = false;
    Call::Take { task, queue, keep }
}

/// The calls of document 01's run, the opening first.
fn run() -> [Call; 13] {
    [
        Call::Open {
            length: 4,
            segments: 256,
        },
        Call::Spawn { task: 0, rights: 1 },
        Call::Spawn { task: 0, rights: 2 },
        Call::Spawn { task: 0, rights: 1 },
        Call::push(3, 0, &[20]),
        take(2, 0),
        Call::push(1, 0, &[10]),
        take(2, 0),
        Call::Finish { task: 1 },
        Call::Finish { task: 2 },
        Call::Finish { task: 3 },
        Call::Sync { task: 0 },
        Call::Finish { task: 0 },
    ]
}

/// The answer in the words of document 01's run.
fn words(call: &Call, answer: Answer) -> String {
    let moved = match call {
        Call::Open { .. } => "opened",
        Call::Spawn { .. } => "spawned task",
        Call::Push { .. } => "pushed",
        Call::Take { .. } => "took",
        Call::Finish { .. } => "finished",
        Call::Left { .. } => "left",
        Call::Sync { .. } => "moved",
    };
    let has_value = !matches!(
        call,
        Call::Open { .. } | Call::Finish { .. } | Call::Sync { .. }
    );
    match answer {
        Answer::Moved(value) if has_value => format!("{moved} {value}"),
        Answer::Moved(_) => moved.to_string(),
        Answer::Empty => "empty".to_string(),
        Answer::Waits => "waits".to_string(),
        Answer::Refused(k) => format!("refused {k}"),
    }
}

fn main() {
    let mut memory = vec![0; WORDS];
    let mut number = 0;
    let mut make = |call: &Call| {
        let answer = call.make(&mut memory);
        number += 1;
        println!("{number:2}  {call:32}  {}", words(call, answer));
        answer
    };
    for call in &run() {
        make(call);
    }
    // What is left in each queue, up to the refusal that ends it.
    for queue in 0..4 {
        let mut index = 0;
        while make(&Call::Left { queue, index }).moved() {
            index += 1;
        }
    }
}
