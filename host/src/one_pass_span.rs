//! The span of a job in one pass over its serial run, with constant work a step:
//! only the latest of the steps that something may need is kept. The machine is its
//! own, without the bounds of the serial runner.

use crate::job::{Instruction, Job, Procedure};
use crate::operations::*;
use crate::simulate::{Table, MOST_EFFECTS};
use std::collections::VecDeque;

/// How many ticks the longest chain has that ends with a step, above the number of
/// that step, so that the greater of two is the later one.
#[derive(Clone, Copy, Debug, Default, PartialEq, Eq, PartialOrd, Ord)]
pub struct Done(u64);

/// Bits for the number of a step.
const STEP: u32 = 24;

impl Done {
    /// Nothing is needed.
    pub const NONE: Done = Done(0);

    pub fn ticks(self) -> u64 {
        self.0 >> STEP
    }

    /// The number of the step, from 0.
    pub fn step(self) -> usize {
        (self.0 & ((1 << STEP) - 1)) as usize
    }

    /// A step that needs this one and takes so many ticks.
    fn then(self, ticks: u32, step: u32) -> Done {
        Done((self.ticks() + u64::from(ticks)) << STEP | u64::from(step))
    }
}

/// What is told of the steps as they are made.
pub trait Watch {
    /// The latest of the steps that the next one needs.
    fn needs(&mut self, _latest: Done) {}
}

/// Nobody watches.
impl Watch for () {}

/// A task on the stack.
struct Task<'a> {
    procedure: &'a Procedure,
    instruction: usize,
    register: u32,
    /// Its own last step; before the first one its spawn, or the finish of an older
    /// sibling that shares a right to pop.
    last: Done,
    /// The latest finish of its children, and of those that may pop from a queue.
    children: Done,
    popping: [Done; QUEUES as usize],
}

impl<'a> Task<'a> {
    fn new(procedure: &'a Procedure, register: u32, last: Done) -> Task<'a> {
        Task {
            procedure,
            instruction: 0,
            register,
            last,
            children: Done::NONE,
            popping: [Done::NONE; QUEUES as usize],
        }
    }
}

#[derive(Default)]
struct Queue {
    /// Each value with what finding it needs: its push, or the finish of a pusher
    /// that stands before the push.
    values: VecDeque<(u32, Done)>,
    /// The latest finish of a task that may push to it.
    pushers: Done,
}

struct Machine<'a> {
    job: &'a Job,
    table: &'a Table,
    queues: [Queue; QUEUES as usize],
    stack: Vec<Task<'a>>,
    steps: u32,
}

/// The span; none where the serial run has not ended after 65,535 steps.
pub fn span(job: &Job, table: &Table) -> Option<u64> {
    watched(job, table, &mut ()).map(Done::ticks)
}

/// The same, watched: the last step of a longest chain, which is the top's return.
pub fn watched(job: &Job, table: &Table, watch: &mut impl Watch) -> Option<Done> {
    let mut machine = Machine {
        job,
        table,
        queues: Default::default(),
        stack: vec![Task::new(&job.procedures()[0], 0, Done::NONE)],
        steps: 0,
    };
    while machine.steps < MOST_EFFECTS {
        let done = machine.step(watch);
        if machine.stack.is_empty() {
            return Some(done);
        }
    }
    None
}

/// The queues on which this right is held.
fn held(rights: u8, right: Right) -> impl Iterator<Item = usize> {
    let queues = (0..QUEUES).filter(move |q| rights & right.bit(*q) != 0);
    queues.map(usize::from)
}

impl<'a> Machine<'a> {
    fn task(&mut self) -> &mut Task<'a> {
        self.stack.last_mut().expect("a task is on the stack")
    }

    fn step(&mut self, watch: &mut impl Watch) -> Done {
        let task = self.task();
        let i = task.procedure.body[task.instruction];
        let latest = self.latest(i);
        watch.needs(latest);
        let done = latest.then(self.table[usize::from(i.operation)], self.steps);
        self.steps += 1;
        self.perform(i, done);
        done
    }

    /// The latest of the steps that the instruction needs.
    fn latest(&self, i: Instruction) -> Done {
        let task = self.stack.last().expect("a task is on the stack");
        match i.operation {
            RETURN | SYNC => task.last.max(task.children),
            POP | GO_IF_EMPTY | TAKE_OR_GO => {
                let queue = &self.queues[usize::from(i.which)];
                let found = queue.values.front().map_or(queue.pushers, |value| value.1);
                task.last.max(task.popping[usize::from(i.which)]).max(found)
            }
            _ => task.last,
        }
    }

    fn perform(&mut self, i: Instruction, done: Done) {
        let task = self.stack.last_mut().expect("a task is on the stack");
        task.last = done;
        task.instruction += 1;
        let (which, target) = (usize::from(i.which), i.operand as usize);
        let sum = task.register.wrapping_add(i.operand);
        match i.operation {
            RETURN => self.finish(done),
            PUSH => self.queues[which].push(i.operand, done),
            PUSH_REGISTER => self.queues[which].push(sum, done),
            GO_IF_EMPTY if self.queues[which].values.is_empty() => task.instruction = target,
            POP | TAKE_OR_GO => match self.queues[which].values.pop_front() {
                Some((value, _)) => task.register = value,
                None if i.operation == TAKE_OR_GO => task.instruction = target,
                None => {}
            },
            GO => task.instruction = target,
            GO_IF_ZERO if task.register == 0 => task.instruction = target,
            ADD => task.register = sum,
            SPAWN => self.spawn(which, sum, done),
            _ => {}
        }
    }

    fn spawn(&mut self, procedure: usize, register: u32, done: Done) {
        let child = &self.job.procedures()[procedure];
        let popping = self.task().popping;
        let siblings = held(child.rights, Right::Pop).map(|q| popping[q]);
        let last = siblings.fold(done, Done::max);
        self.stack.push(Task::new(child, register, last));
    }

    fn finish(&mut self, done: Done) {
        let rights = self.stack.pop().expect("a task").procedure.rights;
        for q in held(rights, Right::Push) {
            let pushers = &mut self.queues[q].pushers;
            *pushers = done.max(*pushers);
        }
        let Some(parent) = self.stack.last_mut() else {
            return;
        };
        parent.children = done.max(parent.children);
        for q in held(rights, Right::Pop) {
            parent.popping[q] = done.max(parent.popping[q]);
        }
    }
}

impl Queue {
    fn push(&mut self, value: u32, done: Done) {
        self.values.push_back((value, done.max(self.pushers)));
    }
}
