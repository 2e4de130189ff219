//! The schedule of a simulation: which worker held which instruction, from when
//! to when.

use crate::job::Instruction;
use crate::overlap::{Log, Path};
use crate::plain::Reply;
use crate::runner::Stepped;
use crate::simulate::Watch;
use std::collections::BTreeMap;

/// An instruction that a worker took.
#[derive(Clone, Debug, PartialEq, Eq)]
pub struct Bar {
    pub task: u32,
    pub procedure: usize,
    pub instruction: Instruction,
    pub start: u32,
    pub end: u32,
    /// The lowest number, from 0, of a worker that was free.
    pub worker: usize,
    /// The answer of its effect; none where it did not fall.
    pub reply: Option<Reply>,
}

#[derive(Default)]
pub struct Schedule {
    /// In the order in which they were taken.
    pub bars: Vec<Bar>,
    /// The bars, by their place, in the order in which their effects fell.
    pub effects: Vec<usize>,
    /// What each worker holds.
    held: Vec<Option<usize>>,
}

impl Schedule {
    /// The lowest worker that is free.
    fn worker(&mut self) -> usize {
        let free = self.held.iter().position(Option::is_none);
        free.unwrap_or_else(|| {
            self.held.push(None);
            self.held.len() - 1
        })
    }

    /// For each bar the path of its task, and how many bars of that task there were
    /// before.
    pub fn places(&self) -> Vec<(Path, usize)> {
        let mut paths = vec![Path::default(); self.bars.len()];
        let mut log = Log::default();
        let path = |log: &Log, bar: &Bar| log.path(bar.task).cloned().unwrap_or_default();
        for at in &self.effects {
            let bar = &self.bars[*at];
            paths[*at] = path(&log, bar);
            if let Some(reply) = bar.reply {
                log.note(bar.task, Stepped::Moved(reply));
            }
        }
        for (at, bar) in self.bars.iter().enumerate() {
            if bar.reply.is_none() {
                paths[at] = path(&log, bar);
            }
        }
        let mut made = BTreeMap::new();
        let place = |path: Path| {
            let before = made.entry(path.clone()).or_insert(0);
            *before += 1;
            (path, *before - 1)
        };
        paths.into_iter().map(place).collect()
    }

    /// How many workers held an instruction at some time.
    pub fn workers(&self) -> usize {
        self.held.len()
    }
}

impl Watch for Schedule {
    fn taken(&mut self, task: u32, procedure: usize, i: Instruction, start: u32, end: u32) {
        let worker = self.worker();
        self.held[worker] = Some(self.bars.len());
        self.bars.push(Bar {
            task,
            procedure,
            instruction: i,
            start,
            end,
            worker,
            reply: None,
        });
    }

    fn fell(&mut self, task: u32, reply: Reply) {
        let bars = &self.bars;
        let is = |held: &Option<usize>| held.is_some_and(|bar| bars[bar].task == task);
        let worker = self.held.iter().position(is);
        let worker = worker.expect("a worker holds the task's instruction");
        if let Some(bar) = self.held[worker].take() {
            self.bars[bar].reply = Some(reply);
            self.effects.push(bar);
        }
    }
}
