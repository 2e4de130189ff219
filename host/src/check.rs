//! The model and program order side by side: every call is made on both, and
//! the answers and the memory are compared.

use crate::answer::*;
use crate::call::Call;
use crate::layout::*;
use crate::order::Order;
use crate::{fast, pools, rules, views};

/// Makes a call on the core's memory.
pub type Program = fn(&Call, &mut [u32]) -> Answer;

pub struct Pair {
    /// The model, or in a test a program that errs.
    pub program: Program,
    pub memory: Vec<u32>,
    pub order: Order,
    /// The memory before the next call.
    before: Vec<u32>,
    calls: u64,
    /// Every so many calls the slow comparisons are made too.
    pub slow_every: u64,
}

impl Pair {
    /// Memory with any words in it; the first call has to be an opening.
    pub fn new(memory: Vec<u32>, slow_every: u64) -> Pair {
        Pair {
            program: Call::make,
            before: memory.clone(),
            memory,
            order: Order::new(),
            calls: 0,
            slow_every,
        }
    }

    /// Makes the call on both; says what differs.
    pub fn make(&mut self, call: &Call) -> Result<Answer, String> {
        let due = self.order.answer(call);
        let want_of_segment = due.moved() && self.wants_segment(call);
        let answer = (self.program)(call, &mut self.memory);
        let due = if want_of_segment { NO_SEGMENT } else { due };
        if answer != due {
            return Err(format!("{call}: {answer:?}, by program order {due:?}"));
        }
        if answer.moved() {
            self.order.note(call, answer);
        } else if self.memory != self.before {
            return Err(format!("{call}: {answer:?}, and words changed"));
        }
        self.calls += 1;
        self.compare_memory(call)?;
        if answer.moved() {
            self.before.copy_from_slice(&self.memory);
        }
        Ok(answer)
    }

    /// Does this push, value by value, come to need a segment while none is free?
    fn wants_segment(&self, call: &Call) -> bool {
        let Some((task, queue, values)) = call.as_push() else {
            return false;
        };
        let m = &self.memory;
        let user = views::read(m, user_view(task, queue));
        let mut room = match user.is_empty() {
            true => 0,
            false => length(m) - count(m, user.tail),
        };
        let mut free = get(m, FREE_SEGMENTS);
        // The first new segment of an empty user view may free another one.
        let mut frees = user.is_empty() && self.link_frees(task, queue);
        for _ in values {
            if room == 0 {
                if free == 0 {
                    return true;
                }
                free = free - 1 + u32::from(std::mem::take(&mut frees));
                room = length(m);
            }
            room -= 1;
        }
        false
    }

    /// Is the view just before the user view not empty, and its tail segment empty?
    fn link_frees(&self, t: u32, q: u32) -> bool {
        let before = views::read(&self.memory, views::place_before_user(&self.memory, t, q));
        !before.is_empty() && count(&self.memory, before.tail) == 0
    }

    fn compare_memory(&self, call: &Call) -> Result<(), String> {
        if !fast::hold(&self.memory) {
            let broken = rules::first_broken(&self.memory);
            return Err(format!("{call}: memory breaks {broken:?}"));
        }
        if !self.calls.is_multiple_of(self.slow_every) {
            return Ok(());
        }
        if let Some(broken) = rules::first_broken(&self.memory) {
            return Err(format!("{call}: memory breaks {broken}"));
        }
        for q in 0..QUEUES {
            let (held, due) = (contents(&self.memory, q), self.order.queued(q));
            if held != due {
                return Err(format!("{call}: queue {q} holds {held:?}, not {due:?}"));
            }
        }
        Ok(())
    }
}

/// All values of queue `q` in program order: the chain of its queue view, then
/// the chains of the other views in the paper's order.
pub fn contents(m: &[u32], q: u32) -> Vec<u32> {
    let holder = rules::live_tasks(m)
        .into_iter()
        .map(|t| get(m, queue_head(t, q)))
        .find(|head| *head != NONE);
    let others = rules::views_in_order(m, q)
        .into_iter()
        .map(|(head, _)| head);
    let heads = holder.into_iter().chain(others);
    heads.flat_map(|head| chain_values(m, head)).collect()
}

/// The values of the chain from `head` on; none for a mark.
pub fn chain_values(m: &[u32], head: u32) -> Vec<u32> {
    let mut values = Vec::new();
    let mut s = head;
    for _ in 0..segments(m) {
        if s >= segments(m) {
            break;
        }
        values.extend((0..count(m, s)).map(|i| pools::value(m, s, i)));
        s = next(m, s);
    }
    values
}
