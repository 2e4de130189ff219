//! A run of a job under an order that somebody else chooses, and what demand 3
//! says of it beside the plain machine's run.

use crate::job::Job;
use crate::plain::{Event, Machine, Reply};
use crate::runner::Stepped;
use std::collections::BTreeMap;
use std::rc::Rc;

/// The path of a task in the tree of spawns; the top's is empty.
pub type Path = Rc<[u32]>;

/// The replies of each task, by its path, a new task's number aside.
pub type Replies = BTreeMap<Path, Vec<Reply>>;

/// A new task's number is not compared.
fn aside(reply: Reply) -> Reply {
    match reply {
        Reply::Spawned(_) => Reply::Spawned(0),
        other => other,
    }
}

/// The paths of the unfinished tasks, by number, and what each was answered.
pub struct Log {
    tasks: BTreeMap<u32, (Path, u32)>,
    replies: Replies,
    moves: u64,
}

impl Default for Log {
    fn default() -> Log {
        Log {
            tasks: BTreeMap::from([(0, (Path::default(), 0))]),
            replies: Replies::new(),
            moves: 0,
        }
    }
}

impl Log {
    /// A call of task `t` with its answer. A call that does not move is nothing.
    pub fn note(&mut self, t: u32, answer: Stepped) {
        let Stepped::Moved(reply) = answer else {
            return;
        };
        let (path, children) = self.tasks[&t].clone();
        self.moves += 1;
        let replies = self.replies.entry(path.clone()).or_default();
        replies.push(aside(reply));
        match reply {
            Reply::Spawned(child) => {
                let new: Path = path.iter().copied().chain([children]).collect();
                let taken = self.tasks.insert(child, (new, 0));
                assert!(taken.is_none(), "the number of a new task is in use");
                self.tasks.insert(t, (path, children + 1));
            }
            Reply::Finished => {
                self.tasks.remove(&t);
            }
            _ => {}
        }
    }

    /// The numbers of the unfinished tasks.
    pub fn unfinished(&self) -> Vec<u32> {
        self.tasks.keys().copied().collect()
    }

    pub fn path(&self, t: u32) -> Option<&Path> {
        self.tasks.get(&t).map(|(path, _)| path)
    }

    pub fn replies(&self) -> &Replies {
        &self.replies
    }

    /// How many calls moved.
    pub fn moves(&self) -> u64 {
        self.moves
    }
}

/// A plain run to its end.
pub struct Plain {
    pub replies: Replies,
    pub steps: u64,
    pub lists: [Vec<u32>; 4],
}

impl Plain {
    /// None where the run has not ended after `most` steps.
    pub fn run(job: &Job, most: u64) -> Option<Plain> {
        let mut machine = Machine::new(job);
        let mut replies = Replies::new();
        while let Some(Event { path, reply, .. }) = machine.step() {
            replies.entry(path).or_default().push(aside(reply));
            if machine.steps() >= most && machine.depth() > 0 {
                return None;
            }
        }
        Some(Plain {
            replies,
            steps: machine.steps(),
            lists: machine.queues().clone().map(Vec::from),
        })
    }

    /// What differs: a task whose replies so far are not the first ones of its
    /// counterpart; once all have finished, a task or a number of steps.
    pub fn differs(&self, log: &Log) -> Option<String> {
        for (path, given) in log.replies() {
            let due = self.replies.get(path).map_or(&[][..], |due| &due[..]);
            if !due.starts_with(given) {
                return Some(format!("task {path:?}: {given:?}, serially {due:?}"));
            }
        }
        if !log.unfinished().is_empty() {
            return None;
        }
        if *log.replies() != self.replies {
            return Some("a task's replies are missing".to_string());
        }
        let (moves, steps) = (log.moves(), self.steps);
        (moves != steps).then(|| format!("{moves} calls moved, {steps} steps serially"))
    }
}
