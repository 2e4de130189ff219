//! The plain machine of document 01: a job run without overlap and without
//! bounds. It has four lists of values, a stack of tasks and a count of steps;
//! a spawned task runs wholly before its spawner goes on.

use crate::job::{Instruction, Job};
use crate::operations::*;
use std::collections::VecDeque;
use std::fmt;
use std::rc::Rc;

/// What a step answers: document 01's word, and the value if it has one.
#[derive(Clone, Copy, Debug, PartialEq, Eq)]
pub enum Reply {
    Spawned(u32),
    Pushed(u32),
    Took(u32),
    Finished,
    Moved,
    Empty,
    Not,
}

impl Reply {
    pub fn word(self) -> &'static str {
        match self {
            Reply::Spawned(_) => "spawned",
            Reply::Pushed(_) => "pushed",
            Reply::Took(_) => "took",
            Reply::Finished => "finished",
            Reply::Moved => "moved",
            Reply::Empty => "empty",
            Reply::Not => "not",
        }
    }

    pub fn value(self) -> Option<u32> {
        match self {
            Reply::Spawned(value) | Reply::Pushed(value) | Reply::Took(value) => Some(value),
            Reply::Finished | Reply::Moved | Reply::Empty | Reply::Not => None,
        }
    }
}

/// The word, and the value or "-".
impl fmt::Display for Reply {
    fn fmt(&self, f: &mut fmt::Formatter) -> fmt::Result {
        match self.value() {
            Some(value) => write!(f, "{} {value}", self.word()),
            None => write!(f, "{} -", self.word()),
        }
    }
}

/// A step that was made.
#[derive(Clone, Debug, PartialEq, Eq)]
pub struct Event {
    /// The task by its path in the tree of spawns: child number k (from 0) of
    /// its spawner, and so on from the top, whose path is empty.
    pub path: Rc<[u32]>,
    /// The task by its number in the order of spawns; the top is 0.
    pub task: u32,
    pub operation: u8,
    pub queue: Option<u8>,
    pub reply: Reply,
}

/// A task on the stack.
struct Task {
    procedure: usize,
    instruction: usize,
    register: u32,
    path: Rc<[u32]>,
    number: u32,
    /// How many children it has spawned.
    children: u32,
}

impl Task {
    fn go(&mut self, target: usize) -> Reply {
        self.instruction = target;
        Reply::Moved
    }
}

pub struct Machine<'a> {
    job: &'a Job,
    queues: [VecDeque<u32>; QUEUES as usize],
    stack: Vec<Task>,
    steps: u64,
    /// How many tasks there have been besides the top.
    spawned: u32,
}

impl<'a> Machine<'a> {
    /// The top task at its first instruction, and nothing queued.
    pub fn new(job: &'a Job) -> Machine<'a> {
        let top = Task {
            procedure: 0,
            instruction: 0,
            register: 0,
            path: Rc::new([]),
            number: 0,
            children: 0,
        };
        Machine {
            job,
            queues: Default::default(),
            stack: vec![top],
            steps: 0,
            spawned: 0,
        }
    }

    pub fn steps(&self) -> u64 {
        self.steps
    }

    /// How many tasks are on the stack; none when the job has ended.
    pub fn depth(&self) -> usize {
        self.stack.len()
    }

    pub fn queues(&self) -> &[VecDeque<u32>; QUEUES as usize] {
        &self.queues
    }

    /// The instruction that the next step does.
    pub fn next(&self) -> Option<Instruction> {
        let task = self.stack.last()?;
        Some(self.job.procedures()[task.procedure].body[task.instruction])
    }

    /// Does the instruction of the stack's last task; none with the stack empty.
    pub fn step(&mut self) -> Option<Event> {
        let i = self.next()?;
        let task = self.stack.last()?;
        let (path, number) = (task.path.clone(), task.number);
        let reply = self.perform(i);
        self.steps += 1;
        let operation = OPERATIONS[usize::from(i.operation)];
        Some(Event {
            path,
            task: number,
            operation: i.operation,
            queue: matches!(operation.which, Which::Queue(_)).then_some(i.which),
            reply,
        })
    }

    /// The effect of an instruction of the stack's last task, and its answer.
    fn perform(&mut self, i: Instruction) -> Reply {
        let task = self.stack.last_mut().expect("a task is on the stack");
        let queue = usize::from(i.which);
        let target = i.operand as usize;
        let sum = task.register.wrapping_add(i.operand);
        task.instruction += 1;
        match i.operation {
            RETURN => {
                self.stack.pop();
                Reply::Finished
            }
            PUSH => self.push(queue, i.operand),
            PUSH_REGISTER => self.push(queue, sum),
            // Operation 10 is this test and then a pop.
            GO_IF_EMPTY | TAKE_OR_GO if self.queues[queue].is_empty() => {
                task.instruction = target;
                Reply::Empty
            }
            GO_IF_EMPTY => Reply::Not,
            POP | TAKE_OR_GO => match self.queues[queue].pop_front() {
                Some(value) => {
                    task.register = value;
                    Reply::Took(value)
                }
                None => Reply::Empty,
            },
            GO => task.go(target),
            GO_IF_ZERO if task.register == 0 => task.go(target),
            ADD => {
                task.register = sum;
                Reply::Moved
            }
            SPAWN => self.spawn(usize::from(i.which), sum),
            // A go that is not taken; and sync, since all children have finished.
            _ => Reply::Moved,
        }
    }

    fn push(&mut self, queue: usize, value: u32) -> Reply {
        self.queues[queue].push_back(value);
        Reply::Pushed(value)
    }

    /// Stacks a child of the stack's last task.
    fn spawn(&mut self, procedure: usize, register: u32) -> Reply {
        self.spawned += 1;
        let spawner = self.stack.last_mut().expect("a task is on the stack");
        let path = spawner.path.iter().copied().chain([spawner.children]);
        let child = Task {
            procedure,
            instruction: 0,
            register,
            path: path.collect(),
            number: self.spawned,
            children: 0,
        };
        spawner.children += 1;
        self.stack.push(child);
        Reply::Spawned(self.spawned)
    }
}
