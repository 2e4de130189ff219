//! The span of a job, word by word from document 02, No. 6: each step of the plain
//! run is asked of each step before it whether it needs that one. So the time is
//! quadratic in the steps.

use crate::job::Job;
use crate::operations::*;
use crate::plain::{Machine, Reply};
use crate::simulate::Table;

/// A step of the plain run.
pub struct Step {
    /// Its task, numbered in the order of spawns.
    pub task: usize,
    pub operation: u8,
    /// The queue, of an operation that names one.
    pub queue: u8,
    pub reply: Reply,
}

impl Step {
    /// Whether it is a take or a test.
    pub fn looks(&self) -> bool {
        matches!(self.operation, POP | GO_IF_EMPTY | TAKE_OR_GO)
    }

    /// Whether it takes a value from this queue.
    pub fn takes(&self, queue: u8) -> bool {
        self.queue == queue && matches!(self.reply, Reply::Took(_))
    }

    pub fn pushes(&self, queue: u8) -> bool {
        self.queue == queue && matches!(self.reply, Reply::Pushed(_))
    }

    /// Whether it finds a value, taken or not.
    pub fn finds(&self) -> bool {
        matches!(self.reply, Reply::Took(_) | Reply::Not)
    }
}

/// A task of the plain run.
pub struct Task {
    pub rights: u8,
    /// The spawner and the spawn, none of the top.
    pub parent: Option<usize>,
    pub spawn: Option<usize>,
}

impl Task {
    pub fn may(&self, right: Right, queue: u8) -> bool {
        self.rights & right.bit(queue) != 0
    }
}

/// A plain run to its end.
pub struct Run {
    pub steps: Vec<Step>,
    pub tasks: Vec<Task>,
}

impl Run {
    /// None where the run has not ended after so many steps.
    pub fn of(job: &Job, most: usize) -> Option<Run> {
        let mut machine = Machine::new(job);
        let top = Task {
            rights: job.procedures()[0].rights,
            parent: None,
            spawn: None,
        };
        let (mut steps, mut tasks) = (Vec::new(), vec![top]);
        while let Some(i) = machine.next() {
            if steps.len() == most {
                return None;
            }
            let event = machine.step()?;
            let task = event.task as usize;
            if i.operation == SPAWN {
                tasks.push(Task {
                    rights: job.procedures()[usize::from(i.which)].rights,
                    parent: Some(task),
                    spawn: Some(steps.len()),
                });
            }
            steps.push(Step {
                task,
                operation: i.operation,
                queue: i.which,
                reply: event.reply,
            });
        }
        Some(Run { steps, tasks })
    }

    /// The same task's previous step.
    fn previous(&self, i: usize) -> Option<usize> {
        let own = self.steps[i].task;
        self.steps[..i].iter().rposition(|step| step.task == own)
    }

    /// The push of the value that step i finds: as many pushes to its queue stand
    /// before that one as takes from the queue stand before step i.
    pub fn push(&self, i: usize) -> Option<usize> {
        let step = &self.steps[i];
        if !step.finds() {
            return None;
        }
        let before = self.steps[..i].iter();
        let taken = before.filter(|other| other.takes(step.queue)).count();
        let numbered = self.steps.iter().enumerate();
        let mut pushes = numbered.filter(|(_, other)| other.pushes(step.queue));
        pushes.nth(taken).map(|(at, _)| at)
    }

    /// Whether this task is an older sibling of the other that shares a right to
    /// pop with it on some queue.
    fn older_sibling(&self, other: usize, own: usize) -> bool {
        let [a, b] = [&self.tasks[other], &self.tasks[own]];
        let shared = |q: u8| a.may(Right::Pop, q) && b.may(Right::Pop, q);
        other < own && a.parent == b.parent && (0..QUEUES).any(shared)
    }

    /// Whether this task is a child whose finish the step waits for.
    fn child(&self, other: usize, step: &Step) -> bool {
        let child = &self.tasks[other];
        let waits = match step.operation {
            RETURN | SYNC => true,
            _ => step.looks() && child.may(Right::Pop, step.queue),
        };
        child.parent == Some(step.task) && waits
    }

    /// Whether step j is the finish of a pusher that step i waits for: all those
    /// before the push of the value found, or before step i where it finds empty.
    fn pusher(&self, j: usize, i: usize, push: Option<usize>) -> bool {
        let (step, other) = (&self.steps[i], self.steps[j].task);
        let may_push = || self.tasks[other].may(Right::Push, step.queue);
        step.looks() && other != step.task && may_push() && j < push.unwrap_or(i)
    }

    /// The steps that step i needs.
    pub fn needs(&self, i: usize) -> Vec<usize> {
        let step = &self.steps[i];
        let push = self.push(i);
        let named = [self.previous(i), self.tasks[step.task].spawn, push];
        let finish = |j: usize| {
            let other = self.steps[j].task;
            self.steps[j].operation == RETURN
                && (self.older_sibling(other, step.task)
                    || self.child(other, step)
                    || self.pusher(j, i, push))
        };
        let needed = |j: &usize| named.contains(&Some(*j)) || finish(*j);
        (0..i).filter(needed).collect()
    }

    pub fn ticks(&self, i: usize, table: &Table) -> u64 {
        u64::from(table[usize::from(self.steps[i].operation)])
    }

    /// The ticks of the longest chain of steps in which each needs the one before.
    pub fn span(&self, table: &Table) -> u64 {
        // For each step the ticks of the longest chain that ends with it.
        let mut longest: Vec<u64> = Vec::new();
        for i in 0..self.steps.len() {
            let before = self.needs(i).into_iter().map(|j| longest[j]);
            longest.push(self.ticks(i, table) + before.max().unwrap_or(0));
        }
        longest.into_iter().max().unwrap_or(0)
    }
}

/// The ticks that so many workers need at most: work plus W - 1 times span, divided
/// by W.
pub fn ceiling(workers: u32, work: u64, span: u64) -> u64 {
    let workers = u64::from(workers);
    (work + (workers - 1) * span) / workers
}

/// Whether these are the ticks of so many workers as far as work and span tell:
/// never less than the span, or than the work divided among the workers; and not
/// above the ceiling.
pub fn bounded(workers: u32, ticks: u64, work: u64, span: u64) -> bool {
    let w = u64::from(workers);
    span <= ticks && work <= w * ticks && w * ticks <= work + (w - 1) * span
}
