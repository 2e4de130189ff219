//! A job simulated with W workers: how many ticks it takes, how much work it is, and
//! its span. Document 02, No. 5 and No. 6.
//!
//! A worker takes an instruction that could move and holds it for its ticks; the
//! effect, a step of the runner, falls at the end of the last one. The clock goes
//! from one such end to the next.

use crate::job::{Instruction, Job};
use crate::layout::TASKS;
use crate::one_pass_span;
use crate::operations::{OPERATIONS, QUEUES};
use crate::plain::Reply;
use crate::runner::{self, Stepped};

/// Words for working that hold the ends: one a task record.
pub const ENDS: usize = TASKS as usize;
/// Words for working. Behind the ends stands what the library works the span out in:
/// 10 words a task of the stack, one more than there are records, 12 for the queues,
/// and for each of them 65,536 places of 2 words. What they hold means nothing, before
/// and after.
pub const WORKING: usize = ENDS + 10 * (TASKS as usize + 1) + 12 + QUEUES as usize * 65_536 * 2;
pub const MOST_WORKERS: u32 = 16;
/// Effects after which a simulation whose top is unfinished is spent.
pub const MOST_EFFECTS: u32 = 65_535;
/// The refusal of a number of workers.
pub const WORKERS_WRONG: u32 = 14;

/// Ticks of each operation, none of them 0.
pub type Table = [u32; OPERATIONS.len()];

/// The ticks that document 02 gives.
pub const OURS: Table = [2, 3, 3, 3, 2, 1, 1, 1, 5, 1, 3];

#[derive(Clone, Copy, Debug, PartialEq, Eq)]
pub enum Simulated {
    /// The top has finished.
    Ended {
        ticks: u64,
        work: u64,
        span: u64,
    },
    Spent,
    /// An instruction was refused with 8 or 9, when chosen or when its effect fell.
    Stopped(u32),
    Refused(u32),
}

impl Simulated {
    /// The number of the case, as the library gives it.
    pub fn status(self) -> u32 {
        match self {
            Simulated::Ended { .. } => 0,
            Simulated::Spent => 35,
            Simulated::Stopped(number) | Simulated::Refused(number) => number,
        }
    }

    /// Ticks, work and span, as the library gives them: zeros where it did not end.
    pub fn out(self) -> [u64; 3] {
        match self {
            Simulated::Ended { ticks, work, span } => [ticks, work, span],
            _ => [0; 3],
        }
    }
}

/// What is told of the instructions of a simulation as it goes.
pub trait Watch {
    /// A worker takes the task's instruction.
    fn taken(&mut self, _task: u32, _procedure: usize, _i: Instruction, _start: u32, _end: u32) {}
    /// Its effect falls; tasks are told in the order in which effects fall.
    fn fell(&mut self, _task: u32, _reply: Reply) {}
}

/// Nobody watches.
impl Watch for () {}

/// Simulates the job with so many workers. The three memories may hold anything;
/// a refusal leaves them. Else both memories of the runner are as after the last
/// effect, and `working` begins with the tick at which the effect of each task is due,
/// 0 where nothing of it is under way.
pub fn simulate(
    job: &[u8],
    workers: u32,
    table: &Table,
    m: &mut [u32],
    r: &mut [u32],
    working: &mut [u32],
) -> Simulated {
    watched(job, workers, table, [m, r, working], &mut ())
}

/// The same, watched. The memories are those of the core, of the runner and for
/// working.
pub fn watched(
    job: &[u8],
    workers: u32,
    table: &Table,
    [m, r, working]: [&mut [u32]; 3],
    watch: &mut impl Watch,
) -> Simulated {
    let job = match accepted(job, workers, m, r, working) {
        Ok(job) => job,
        Err(number) => return Simulated::Refused(number),
    };
    runner::open_job(&job, m, r);
    let due = working
        .first_chunk_mut()
        .expect("as many words as were tested");
    due.fill(0);
    let mut machine = Machine {
        job: &job,
        table,
        m,
        r,
        due,
        order: vec![0],
        free: workers,
        clock: 0,
        work: 0,
        effects: 0,
        watch,
    };
    loop {
        if let Err(end) = machine.choose().and_then(|()| machine.fall()) {
            return machine.answer(end);
        }
    }
}

/// Tests 1, 10, 11, 12 and 14.
fn accepted(job: &[u8], workers: u32, m: &[u32], r: &[u32], working: &[u32]) -> Result<Job, u32> {
    if working.len() != WORKING {
        return Err(1);
    }
    let job = runner::accepted(job, m, r).map_err(Stepped::status)?;
    if (1..=MOST_WORKERS).contains(&workers) {
        Ok(job)
    } else {
        Err(WORKERS_WRONG)
    }
}

/// Why a simulation that was not refused is over.
enum End {
    /// The top has finished.
    Top,
    Spent,
    Stopped(u32),
}

/// The end of a simulation is the error case.
type Goes = Result<(), End>;

struct Machine<'a, W> {
    job: &'a Job,
    table: &'a Table,
    m: &'a mut [u32],
    r: &'a mut [u32],
    /// For each task the tick at which its effect falls, 0 for none.
    due: &'a mut [u32; ENDS],
    /// The unfinished tasks in program order.
    order: Vec<u32>,
    free: u32,
    clock: u32,
    /// The ticks of all effects that have fallen.
    work: u64,
    effects: u32,
    watch: &'a mut W,
}

impl<W: Watch> Machine<'_, W> {
    /// At the job's end the serial run, which has as many steps as there were effects,
    /// has ended too.
    fn answer(&self, end: End) -> Simulated {
        match end {
            End::Spent => Simulated::Spent,
            End::Stopped(number) => Simulated::Stopped(number),
            End::Top => Simulated::Ended {
                ticks: u64::from(self.clock),
                work: self.work,
                span: one_pass_span::span(self.job, self.table).expect("the serial run ends"),
            },
        }
    }

    /// Free workers take, in program order, what could move. They come to no task
    /// behind the one that the last of them takes.
    fn choose(&mut self) -> Goes {
        for at in 0..self.order.len() {
            let t = self.order[at];
            if self.free == 0 {
                break;
            }
            if self.due[t as usize] != 0 {
                continue;
            }
            match runner::would_move(self.job, self.m, self.r, t) {
                Ok(()) => self.take(t),
                Err(Stepped::Refused(number)) => return Err(End::Stopped(number)),
                Err(_) => {}
            }
        }
        Ok(())
    }

    fn take(&mut self, t: u32) {
        let i = runner::next(self.job, self.r, t);
        let end = self.clock + self.ticks(i);
        self.free -= 1;
        self.due[t as usize] = end;
        let procedure = self.r[runner::RECORD * t as usize] as usize;
        self.watch.taken(t, procedure, i, self.clock, end);
    }

    fn ticks(&self, i: Instruction) -> u32 {
        self.table[usize::from(i.operation)]
    }

    /// The clock goes to the next end, and its effects fall in program order. Tasks
    /// that come and go meanwhile do not change the order of the others.
    fn fall(&mut self) -> Goes {
        let ends = self.order.iter().map(|t| self.due[*t as usize]);
        // Where all workers are free every task was asked, and the first in program
        // order waits for nobody.
        let next = ends.filter(|end| *end != 0).min();
        self.clock = next.expect("an instruction is under way");
        let (mut falling, mut number) = ([0; MOST_WORKERS as usize], 0);
        let (due, clock) = (&*self.due, self.clock);
        for t in self.order.iter().filter(|t| due[**t as usize] == clock) {
            falling[number] = *t;
            number += 1;
        }
        falling[..number].iter().try_for_each(|t| self.effect(*t))
    }

    /// One effect, then what it may have ended.
    fn effect(&mut self, t: u32) -> Goes {
        let ticks = self.ticks(runner::next(self.job, self.r, t));
        let reply = match runner::stepped(self.job, self.m, self.r, t) {
            Stepped::Moved(reply) => reply,
            Stepped::Refused(number) => return Err(End::Stopped(number)),
            Stepped::Waits => unreachable!("what could move when it was taken still can"),
        };
        self.due[t as usize] = 0;
        self.free += 1;
        self.work += u64::from(ticks);
        self.effects += 1;
        self.watch.fell(t, reply);
        self.reorder(t, reply);
        if self.order.is_empty() {
            return Err(End::Top);
        }
        if self.effects == MOST_EFFECTS {
            return Err(End::Spent);
        }
        Ok(())
    }

    /// A new task's spot is the one just before its spawner's.
    fn reorder(&mut self, t: u32, reply: Reply) {
        if !matches!(reply, Reply::Spawned(_) | Reply::Finished) {
            return;
        }
        let own = self.order.iter().position(|other| *other == t);
        let own = own.expect("the task is unfinished");
        match reply {
            Reply::Spawned(child) => self.order.insert(own, child),
            _ => {
                self.order.remove(own);
            }
        }
    }
}
