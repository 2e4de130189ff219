//! Program order, as document 01's section of that name has it: a list of the
//! steps made and the spots of the unfinished tasks. No views, no segments and
//! no words of memory. What a call answers is read off that list.
//!
//! Two things are not known here: whether a segment is free (9), and whether
//! memory passes (1, 2, 3).

use crate::answer::*;
use crate::call::Call;
use crate::layout::{pop_right, push_right, ALL_RIGHTS, POP_RIGHTS, QUEUES, TASKS};
use std::collections::VecDeque;

/// What a step did to the queues.
#[derive(Clone, Copy, Debug, PartialEq, Eq)]
enum Item {
    Push {
        queue: u32,
        value: u32,
    },
    Take {
        queue: u32,
    },
    /// A spawn, sync or finish, a run of none, or a take that found nothing or
    /// kept the value: it moved, and no queue changed.
    Other,
    /// Where the next step of this unfinished task would stand.
    Spot(u32),
}

#[derive(Clone, Copy, Debug)]
struct Task {
    rights: u32,
    parent: Option<u32>,
}

/// What a take finds.
#[derive(Clone, Copy, Debug, PartialEq, Eq)]
pub enum Finding {
    Value(u32),
    Empty,
    Waits,
}

/// The steps so far and the unfinished tasks.
#[derive(Clone, Debug)]
pub struct Order {
    items: Vec<Item>,
    tasks: Vec<Option<Task>>,
    /// Numbers for new tasks; the last one is used next.
    numbers: Vec<u32>,
}

impl Default for Order {
    fn default() -> Self {
        Order::new()
    }
}

impl Order {
    /// Just opened: no step, and the top's spot.
    pub fn new() -> Order {
        let top = Task {
            rights: ALL_RIGHTS,
            parent: None,
        };
        let mut tasks = vec![None; TASKS as usize];
        tasks[0] = Some(top);
        Order {
            items: vec![Item::Spot(0)],
            tasks,
            numbers: (1..TASKS).rev().collect(),
        }
    }

    fn task(&self, t: u32) -> Option<Task> {
        self.tasks.get(t as usize).copied().flatten()
    }

    /// Rights of `t`, 0 if it is not unfinished.
    pub fn rights(&self, t: u32) -> u32 {
        self.task(t).map_or(0, |task| task.rights)
    }

    /// The unfinished tasks in the order of their spots.
    pub fn spots(&self) -> impl DoubleEndedIterator<Item = u32> + '_ {
        self.items.iter().filter_map(|item| match item {
            Item::Spot(t) => Some(*t),
            _ => None,
        })
    }

    /// How many steps and spots the list has.
    pub fn size(&self) -> usize {
        self.items.len()
    }

    pub fn top_finished(&self) -> bool {
        self.task(0).is_none()
    }

    fn parent(&self, t: u32) -> Option<u32> {
        self.task(t).and_then(|task| task.parent)
    }

    fn has_child_with(&self, t: u32, fits: impl Fn(u32) -> bool) -> bool {
        self.spots()
            .any(|c| self.parent(c) == Some(t) && fits(self.rights(c)))
    }

    /// An older sibling's spot stands before that of `t`.
    fn waits_for_sibling(&self, t: u32) -> bool {
        let shared = self.rights(t) & POP_RIGHTS;
        let up = self.parent(t);
        self.spots()
            .take_while(|s| *s != t)
            .any(|s| up.is_some() && self.parent(s) == up && self.rights(s) & shared != 0)
    }

    /// Runs a plain queue over the steps before the caller's spot.
    pub fn finding(&self, caller: u32, q: u32) -> Finding {
        let mut pusher_before = false;
        let mut pending = VecDeque::new();
        for item in &self.items {
            match *item {
                Item::Push { queue, value } if queue == q => {
                    pending.push_back((value, pusher_before));
                }
                Item::Take { queue } if queue == q => {
                    pending.pop_front();
                }
                Item::Spot(t) if t == caller => break,
                Item::Spot(t) => pusher_before |= self.rights(t) & push_right(q) != 0,
                _ => {}
            }
        }
        match pending.front() {
            Some((value, false)) => Finding::Value(*value),
            None if !pusher_before => Finding::Empty,
            _ => Finding::Waits,
        }
    }

    /// A plain queue over all steps: what queue `q` still has.
    pub fn queued(&self, q: u32) -> Vec<u32> {
        let mut list = VecDeque::new();
        for item in &self.items {
            match *item {
                Item::Push { queue, value } if queue == q => list.push_back(value),
                Item::Take { queue } if queue == q => drop(list.pop_front()),
                _ => {}
            }
        }
        list.into()
    }

    /// What the call answers, a want of segments and the state of the memory
    /// aside.
    pub fn answer(&self, call: &Call) -> Answer {
        let tried = match *call {
            Call::Open { .. } => Ok(Answer::Moved(0)),
            Call::Spawn { task, rights } => self.spawn(task, rights),
            Call::Push {
                task,
                queue,
                ref values,
            } => self.push(task, queue, values),
            Call::Take { task, queue, .. } => self.take(task, queue),
            Call::Sync { task } | Call::Finish { task } => self.end(task),
            Call::Left { queue, index } => self.left(queue, index),
        };
        match tried {
            Ok(answer) | Err(answer) => answer,
        }
    }

    fn unfinished(&self, t: u32) -> Result<Task, Answer> {
        self.task(t).ok_or(NO_SUCH_TASK)
    }

    fn unless(bad: bool, answer: Answer) -> Result<(), Answer> {
        if bad {
            Err(answer)
        } else {
            Ok(())
        }
    }

    fn spawn(&self, t: u32, rights: u32) -> Result<Answer, Answer> {
        let task = self.unfinished(t)?;
        Order::unless(rights & !task.rights != 0, NO_RIGHT)?;
        Order::unless(self.waits_for_sibling(t), Answer::Waits)?;
        Order::unless(self.spots().count() == TASKS as usize, NO_RECORD)?;
        let number = self.numbers.last().copied();
        Ok(Answer::Moved(number.unwrap_or(0)))
    }

    fn push(&self, t: u32, q: u32, values: &[u32]) -> Result<Answer, Answer> {
        let task = self.unfinished(t)?;
        Order::unless(q >= QUEUES, NO_SUCH_QUEUE)?;
        Order::unless(task.rights & push_right(q) == 0, NO_RIGHT)?;
        Order::unless(self.waits_for_sibling(t), Answer::Waits)?;
        Ok(Answer::Moved(values.last().copied().unwrap_or(0)))
    }

    /// Whether the value is kept does not matter to the answer.
    fn take(&self, t: u32, q: u32) -> Result<Answer, Answer> {
        let task = self.unfinished(t)?;
        Order::unless(q >= QUEUES, NO_SUCH_QUEUE)?;
        Order::unless(task.rights & pop_right(q) == 0, NO_RIGHT)?;
        Order::unless(self.waits_for_sibling(t), Answer::Waits)?;
        let pops = |rights| rights & pop_right(q) != 0;
        Order::unless(self.has_child_with(t, pops), Answer::Waits)?;
        Ok(match self.finding(t, q) {
            Finding::Value(value) => Answer::Moved(value),
            Finding::Empty => Answer::Empty,
            Finding::Waits => Answer::Waits,
        })
    }

    fn end(&self, t: u32) -> Result<Answer, Answer> {
        self.unfinished(t)?;
        Order::unless(self.waits_for_sibling(t), Answer::Waits)?;
        Order::unless(self.has_child_with(t, |_| true), Answer::Waits)?;
        Ok(Answer::Moved(0))
    }

    fn left(&self, q: u32, index: u32) -> Result<Answer, Answer> {
        Order::unless(q >= QUEUES, NO_SUCH_QUEUE)?;
        Order::unless(!self.top_finished(), Answer::Waits)?;
        let queued = self.queued(q);
        let value = queued.get(index as usize).ok_or(PAST_THE_END)?;
        Ok(Answer::Moved(*value))
    }

    /// Writes down a call that moved, with its answer.
    pub fn note(&mut self, call: &Call, answer: Answer) {
        match *call {
            Call::Open { .. } => *self = Order::new(),
            Call::Left { .. } => {}
            Call::Spawn { task, rights } => self.note_spawn(task, rights),
            Call::Push {
                task,
                queue,
                ref values,
            } => self.note_run(task, queue, values),
            Call::Take { task, queue, keep } => {
                let taken = !keep && answer != Answer::Empty;
                let step = if taken {
                    Item::Take { queue }
                } else {
                    Item::Other
                };
                self.note_step(task, step);
            }
            Call::Sync { task } => self.note_step(task, Item::Other),
            Call::Finish { task } => self.note_finish(task),
        }
    }

    fn spot(&self, t: u32) -> usize {
        let here = |item: &Item| *item == Item::Spot(t);
        self.items
            .iter()
            .position(here)
            .expect("an unfinished task")
    }

    fn note_step(&mut self, t: u32, step: Item) {
        let spot = self.spot(t);
        self.items.insert(spot, step);
    }

    /// A run is its values one after another.
    fn note_run(&mut self, t: u32, queue: u32, values: &[u32]) {
        if values.is_empty() {
            return self.note_step(t, Item::Other);
        }
        let steps = values.iter().map(|value| Item::Push {
            queue,
            value: *value,
        });
        let spot = self.spot(t);
        self.items.splice(spot..spot, steps);
    }

    /// The child's spot stands after the spawn and before the spawner's.
    fn note_spawn(&mut self, t: u32, rights: u32) {
        let child = self.numbers.pop().expect("a free number");
        let parent = Some(t);
        self.tasks[child as usize] = Some(Task { rights, parent });
        self.note_step(t, Item::Other);
        self.note_step(t, Item::Spot(child));
    }

    /// The top's number is not used again.
    fn note_finish(&mut self, t: u32) {
        let spot = self.spot(t);
        self.items[spot] = Item::Other;
        self.tasks[t as usize] = None;
        if t != 0 {
            self.numbers.push(t);
        }
    }
}
