//! The span once more: what a step needs is listed rule by rule. It may err in one
//! place, for tests of what can be told apart.

use crate::operations::*;
use crate::simulate::Table;
use crate::span::{Run, Step};

#[derive(Clone, Copy, Debug, PartialEq, Eq)]
pub enum Fault {
    PreviousLeftOut,
    SpawnLeftOut,
    PushLeftOut,
    /// The push of the youngest value queued.
    LastPush,
    /// A test that finds a value needs its push no more than one that does not.
    PushOfTakesOnly,
    SiblingsLeftOut,
    /// An older sibling of any rights.
    AnySibling,
    /// An older sibling that shares a right to push.
    SiblingsThatPush,
    ChildrenLeftOut,
    /// Only a finish waits for children, a sync does not.
    ChildrenOfReturnsOnly,
    /// A take does not need the children that may pop from its queue.
    PoppingChildrenLeftOut,
    /// A take needs all children.
    AnyChildOfTakes,
    PushersLeftOut,
    /// Of a value that is found its push alone is needed.
    PushersOfEmptyOnly,
    /// Where a queue is found empty no finish is needed.
    PushersOfFoundOnly,
    /// The finish of the task that pushed the value, too.
    PusherOfTheValue,
    /// All pushers whose finish stands before the instruction.
    PushersUpToTheInstruction,
    /// A pusher is a task that has pushed.
    PushersThatPush,
    PushersOfAnyQueue,
    /// Only the task's own children and siblings are pushers.
    PushersNearby,
    /// Of the operations that look in a queue only the pop waits.
    PopsOnly,
    /// The ticks of the last instruction are left out.
    LastNotCounted,
    /// Instructions are counted in place of ticks.
    InstructionsCounted,
}

struct Erring<'a> {
    fault: Option<Fault>,
    run: &'a Run,
}

/// The span with this fault, or with none.
pub fn span(fault: Option<Fault>, run: &Run, table: &Table) -> u64 {
    let erring = Erring { fault, run };
    let ticks = |i| match fault {
        Some(Fault::InstructionsCounted) => 1,
        _ => run.ticks(i, table),
    };
    let (mut starts, mut ends) = (Vec::new(), Vec::new());
    for i in 0..run.steps.len() {
        let start: u64 = erring.needs(i).map(|j| ends[j]).max().unwrap_or(0);
        starts.push(start);
        ends.push(start + ticks(i));
    }
    let last = if fault == Some(Fault::LastNotCounted) {
        starts
    } else {
        ends
    };
    last.into_iter().max().unwrap_or(0)
}

impl Erring<'_> {
    fn has(&self, fault: Fault) -> bool {
        self.fault == Some(fault)
    }

    /// The finishes of all tasks that have finished before step i, with the tasks.
    fn finished(&self, i: usize) -> impl Iterator<Item = (usize, usize)> + '_ {
        let steps = self.run.steps[..i].iter().enumerate();
        let finishes = steps.filter(|(_, step)| step.operation == RETURN);
        finishes.map(|(at, step)| (at, step.task))
    }

    fn needs(&self, i: usize) -> impl Iterator<Item = usize> {
        let own = self.own(i).into_iter();
        let found = self.found(i).into_iter();
        let finishes = [self.siblings(i), self.children(i), self.pushers(i)];
        own.chain(found).chain(finishes.into_iter().flatten())
    }

    /// The task's previous step or its spawn.
    fn own(&self, i: usize) -> Option<usize> {
        let task = self.run.steps[i].task;
        let mut before = self.run.steps[..i].iter();
        match before.rposition(|step| step.task == task) {
            Some(_) if self.has(Fault::PreviousLeftOut) => None,
            None if self.has(Fault::SpawnLeftOut) => None,
            None => self.run.tasks[task].spawn,
            previous => previous,
        }
    }

    /// The push of the value found.
    fn found(&self, i: usize) -> Option<usize> {
        let step = &self.run.steps[i];
        let left_out = self.has(Fault::PushLeftOut)
            || self.has(Fault::PushOfTakesOnly) && !step.takes(step.queue);
        let first = self.run.push(i).filter(|_| !left_out)?;
        if self.has(Fault::LastPush) {
            let mut before = self.run.steps[..i].iter();
            return before.rposition(|other| other.pushes(step.queue));
        }
        Some(first)
    }

    /// The finishes of older siblings.
    fn siblings(&self, i: usize) -> Vec<usize> {
        let tasks = &self.run.tasks;
        let own = self.run.steps[i].task;
        let shares = |other: usize, right: Right| {
            let both = |q: u8| tasks[other].may(right, q) && tasks[own].may(right, q);
            (0..QUEUES).any(both)
        };
        let needed = |other: usize| match self.fault {
            Some(Fault::SiblingsLeftOut) => false,
            Some(Fault::AnySibling) => true,
            Some(Fault::SiblingsThatPush) => {
                shares(other, Right::Push) || shares(other, Right::Pop)
            }
            _ => shares(other, Right::Pop),
        };
        let sibling = |other: usize| other != own && tasks[other].parent == tasks[own].parent;
        let finished = self.finished(i);
        let them = finished.filter(|(_, other)| sibling(*other) && needed(*other));
        them.map(|(at, _)| at).collect()
    }

    /// The finishes of children.
    fn children(&self, i: usize) -> Vec<usize> {
        let step = &self.run.steps[i];
        let may_pop = |other: usize| self.run.tasks[other].may(Right::Pop, step.queue);
        let needed = |other: usize| match step.operation {
            RETURN => true,
            SYNC => !self.has(Fault::ChildrenOfReturnsOnly),
            _ if !self.looks(step) || self.has(Fault::PoppingChildrenLeftOut) => false,
            _ => may_pop(other) || self.has(Fault::AnyChildOfTakes),
        };
        let child = |other: usize| self.run.tasks[other].parent == Some(step.task);
        let finished = self.finished(i);
        let them = finished.filter(|(_, other)| child(*other) && needed(*other));
        let left_out = self.has(Fault::ChildrenLeftOut);
        them.map(|(at, _)| at).filter(|_| !left_out).collect()
    }

    /// Whether a step waits for pushers.
    fn looks(&self, step: &Step) -> bool {
        step.operation == POP || step.looks() && !self.has(Fault::PopsOnly)
    }

    /// The finishes of pushers.
    fn pushers(&self, i: usize) -> Vec<usize> {
        let step = &self.run.steps[i];
        let push = self.run.push(i);
        let left_out = match push {
            Some(_) => self.has(Fault::PushersOfEmptyOnly),
            None => self.has(Fault::PushersOfFoundOnly),
        };
        if !self.looks(step) || left_out || self.has(Fault::PushersLeftOut) {
            return Vec::new();
        }
        let before = match push {
            Some(push) if !self.has(Fault::PushersUpToTheInstruction) => push,
            _ => i,
        };
        let finished = self.finished(i);
        let wanted = finished.filter(|(at, other)| {
            self.is_pusher(*other, i) && (*at < before || self.pushed_it(*other, push))
        });
        wanted.map(|(at, _)| at).collect()
    }

    fn is_pusher(&self, other: usize, i: usize) -> bool {
        let (step, task) = (&self.run.steps[i], &self.run.tasks[other]);
        let pushed = |made: &Step| made.task == other && made.pushes(step.queue);
        let parents = [Some(step.task), self.run.tasks[step.task].parent];
        match self.fault {
            Some(Fault::PushersThatPush) => self.run.steps[..i].iter().any(pushed),
            Some(Fault::PushersOfAnyQueue) => (0..QUEUES).any(|q| task.may(Right::Push, q)),
            Some(Fault::PushersNearby) if !parents.contains(&task.parent) => false,
            _ => task.may(Right::Push, step.queue),
        }
    }

    /// Whether the value found is this task's.
    fn pushed_it(&self, other: usize, push: Option<usize>) -> bool {
        let pushed = push.is_some_and(|push| self.run.steps[push].task == other);
        pushed && self.has(Fault::PusherOfTheValue)
    }
}
