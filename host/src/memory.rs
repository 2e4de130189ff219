//! The memory of a core, with short names for the calls and for words that are
//! set by hand. For tests and for memories made by hand.

use crate::answer::Answer;
use crate::call::Call;
use crate::layout::*;
use crate::views::{self, View, EMPTY};
use crate::{fast, rules};

pub use crate::answer::Answer::{Empty, Moved, Refused, Waits};

/// Short names for the calls, by what makes a call.
pub trait Calls {
    fn make(&mut self, call: &Call) -> Answer;

    fn spawn(&mut self, task: u32, rights: u32) -> Answer {
        self.make(&Call::Spawn { task, rights })
    }

    /// A run of one.
    fn push(&mut self, task: u32, queue: u32, value: u32) -> Answer {
        self.push_run(task, queue, &[value])
    }

    fn push_run(&mut self, task: u32, queue: u32, values: &[u32]) -> Answer {
        self.make(&Call::push(task, queue, values))
    }

    fn take(&mut self, task: u32, queue: u32) -> Answer {
        let keep = false;
        self.make(&Call::Take { task, queue, keep })
    }

    /// A take whose value stays queued.
    fn peek(&mut self, task: u32, queue: u32) -> Answer {
        let keep = true;
        self.make(&Call::Take { task, queue, keep })
    }

    fn sync(&mut self, task: u32) -> Answer {
        self.make(&Call::Sync { task })
    }

    fn finish(&mut self, task: u32) -> Answer {
        self.make(&Call::Finish { task })
    }

    fn left(&mut self, queue: u32, index: u32) -> Answer {
        self.make(&Call::Left { queue, index })
    }
}

/// A core's memory. Every call checks that a call that does not move changes
/// no word, and that the two forms of the memory rules agree afterwards.
#[derive(Clone)]
pub struct Core(pub Vec<u32>);

impl Core {
    /// Opened over words that are not zero.
    pub fn open(length: u32, segments: u32) -> Core {
        let mut core = Core(vec![7; WORDS]);
        let answer = core.make(&Call::Open { length, segments });
        assert_eq!(answer, Moved(0));
        core
    }

    pub fn passes(&self) -> bool {
        rules::hold(&self.0)
    }

    pub fn broken(&self) -> Option<&'static str> {
        rules::first_broken(&self.0)
    }

    pub fn put(&mut self, address: usize, word: u32) {
        put(&mut self.0, address, word);
    }

    pub fn get(&self, address: usize) -> u32 {
        get(&self.0, address)
    }

    pub fn queue_head(&self, t: u32, q: u32) -> u32 {
        self.get(queue_head(t, q))
    }

    /// Children, user and right view, as pairs.
    pub fn views(&self, t: u32, q: u32) -> [(u32, u32); 3] {
        [children_view(t, q), user_view(t, q), right_view(t, q)].map(|place| {
            let view = views::read(&self.0, place);
            (view.head, view.tail)
        })
    }

    /// Sets children, user and right view.
    pub fn set_views(&mut self, t: u32, q: u32, views: [(u32, u32); 3]) {
        let places = [children_view(t, q), user_view(t, q), right_view(t, q)];
        for (place, (head, tail)) in places.into_iter().zip(views) {
            views::write(&mut self.0, place, View { head, tail });
        }
    }

    /// Sets the values and the next of a segment, from place 0 on.
    pub fn set_segment(&mut self, s: u32, values: &[u32], next: u32) {
        self.put(segment(s) + FIRST, 0);
        self.put(segment(s) + COUNT, values.len() as u32);
        self.put(segment(s) + NEXT, next);
        let length = length(&self.0);
        for (i, value) in values.iter().enumerate() {
            self.put(value_place(s, length, i as u32), *value);
        }
    }

    /// All segments but these are free, the lowest on top.
    pub fn set_held(&mut self, held: &[u32]) {
        let opened = segments(&self.0);
        let free: Vec<u32> = (0..opened).rev().filter(|s| !held.contains(s)).collect();
        self.put(FREE_SEGMENTS, free.len() as u32);
        for (i, s) in free.into_iter().enumerate() {
            self.put(segment_place(i as u32), s);
        }
    }

    /// The free segments, the next one to be used last.
    pub fn free_segments(&self) -> Vec<u32> {
        rules::free_segments(&self.0)
    }
}

impl Calls for Core {
    fn make(&mut self, call: &Call) -> Answer {
        let before = self.0.clone();
        let answer = call.make(&mut self.0);
        if !answer.moved() {
            assert!(self.0 == before, "{call} is {answer:?} and changes words");
        }
        assert_eq!(fast::held(&self.0), rules::held(&self.0), "after {call}");
        answer
    }
}

/// An empty view as a pair.
pub const E: (u32, u32) = (EMPTY.head, EMPTY.tail);
