//! Traces of the most lines, whose replay is timed.

use crate::large_job::{large, BODIES};
use crate::long_job;
use crate::proved_run::printed;
use host::asm::assemble;
use host::trace::MOST_LINES;

/// A top that leaves 2,000 values in each queue, and makes most calls of a trace
/// until then.
fn leaves() -> Vec<u8> {
    let text = format!(
        "length 64
        procedure top all
        add 2000
        more: push-register 0 0
        push-register 1 0
        push-register 2 0
        push-register 3 0
        {}add -1
        go-if-zero done
        go more
        done: return",
        "sync\n".repeat(21)
    );
    assemble(&text).expect("the job assembles")
}

pub struct ReplayScene {
    pub name: &'static str,
    pub job: Vec<u8>,
    /// The tasks of the calls.
    pub tasks: Vec<u32>,
    /// The first lines that are printed, as many as a trace has.
    pub trace: Vec<u8>,
}

impl ReplayScene {
    fn new(name: &'static str, job: Vec<u8>, mut tasks: Vec<u32>, calls: usize) -> ReplayScene {
        tasks.truncate(calls);
        let bytes: Vec<u8> = tasks.iter().map(|task| *task as u8).collect();
        let text = printed(&job, &bytes).map_or(String::new(), |printed| printed.text);
        let lines: Vec<&str> = text.split_inclusive('\n').take(MOST_LINES).collect();
        assert_eq!((tasks.len(), lines.len()), (calls, MOST_LINES), "{name}");
        let trace = lines.concat().into_bytes();
        ReplayScene {
            name,
            job,
            tasks,
            trace,
        }
    }
}

/// A small job with many tasks; one task of a job with one large body; the same
/// steps in a job with 63 bodies more; a job that leaves 8,000 values, each of
/// which has a line.
pub fn all() -> [ReplayScene; 4] {
    let small = assemble(long_job::TEXT).expect("the long job assembles");
    let order = long_job::order(&small);
    let top = vec![0; MOST_LINES];
    [
        ReplayScene::new("small job", small, order, MOST_LINES),
        ReplayScene::new("1 body of 128", large(1), top.clone(), MOST_LINES),
        ReplayScene::new("64 bodies of 128", large(BODIES), top.clone(), MOST_LINES),
        ReplayScene::new("8,000 values left", leaves(), top, MOST_LINES - 8_000),
    ]
}
