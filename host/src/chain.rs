//! One longest chain of a job: steps of its serial run of which each needs the one
//! before, and whose ticks together are the span.

use crate::job::Job;
use crate::one_pass_span::{watched, Done, Watch};
use crate::overlap::Path;
use crate::plain::Machine;
use crate::simulate::Table;
use std::collections::BTreeMap;

/// For each step the latest one that it needs.
struct Latest(Vec<Done>);

impl Watch for Latest {
    fn needs(&mut self, latest: Done) {
        self.0.push(latest);
    }
}

/// The numbers of the steps, the first one first; none where the serial run has not
/// ended after 65,535 steps.
pub fn longest(job: &Job, table: &Table) -> Option<Vec<usize>> {
    let mut latest = Latest(Vec::new());
    let last = watched(job, table, &mut latest)?;
    let mut chain = vec![last.step()];
    let mut at = last.step();
    while latest.0[at] != Done::NONE {
        at = latest.0[at].step();
        chain.push(at);
    }
    chain.reverse();
    Some(chain)
}

/// The numbers, from 0, of steps in a chain: by the path of a step's task and by how
/// many steps of that task stand before it. So each has its counterpart in every run.
pub type Places = BTreeMap<(Path, usize), usize>;

/// This chain of steps of the serial run, by place.
pub fn places(job: &Job, chain: &[usize]) -> Places {
    let (mut machine, mut made) = (Machine::new(job), BTreeMap::new());
    let mut places = Places::new();
    for (number, step) in chain.iter().enumerate() {
        while let Some(event) = machine.step() {
            let before = made.entry(event.path.clone()).or_insert(0);
            *before += 1;
            if machine.steps() == *step as u64 + 1 {
                places.insert((event.path, *before - 1), number);
                break;
            }
        }
    }
    places
}
