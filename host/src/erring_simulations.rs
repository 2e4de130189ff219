//! The simulation a second time, word by word and slowly: each question is a step
//! on copies of the memories, and program order is read from the tree. It may err
//! in one place, for tests of what can be told apart.

use crate::job::Job;
use crate::layout::{status, FINISHED};
use crate::one_pass_span;
use crate::runner::{self, Stepped, RECORD};
use crate::simulate::{Simulated, Table, ENDS, MOST_EFFECTS, MOST_WORKERS};
use crate::simulate::{WORKERS_WRONG, WORKING};
use crate::tree;

#[derive(Clone, Copy, Debug, PartialEq, Eq)]
pub enum Fault {
    ChosenByNumber,
    ChosenBackward,
    /// The first task that waits ends the choice: a worker is idle beside others.
    WaitEndsTheChoice,
    OneForEachChoice,
    PassedWhenChosen,
    /// An effect that is refused is tried again a tick later.
    PassedWhenFalling,
    /// 8 and 9 end it wherever they are due, with no worker free for them.
    AnyUntaken,
    OneWorkerMore,
    EffectATickEarly,
    FallByNumber,
    FallAsTaken,
    FallBackward,
    /// Workers that are freed choose before the other effects of the tick fall.
    ChoiceBetweenEffects,
    /// A child takes no part in the choice of the tick that it is spawned in.
    ChildrenLate,
    SpentLate,
    SpentEarly,
    /// The last effect is too many although the top finishes with it.
    SpentBeforeEnded,
    /// The other effects of the tick fall all the same.
    SpentAfterTheTick,
    WorkWhenTaken,
    /// Workers are counted as busy where they are idle.
    IdleIsWork,
    Workers0,
    Workers17,
    /// 14 before the job's numbers.
    WorkersFirst,
    /// The words for working may be of any number that is large enough.
    LongWorking,
}

/// The simulation with this fault, or with none. The memories are those of the
/// core, of the runner and for working.
pub fn simulate(
    fault: Option<Fault>,
    job: &[u8],
    workers: u32,
    table: &Table,
    [m, r, working]: [&mut [u32]; 3],
) -> Simulated {
    let job = match accepted(fault, job, workers, [m, r, working]) {
        Ok(job) => job,
        Err(number) => return Simulated::Refused(number),
    };
    runner::open_job(&job, m, r);
    let due = &mut working[..ENDS];
    due.fill(0);
    let mut machine = Machine {
        fault,
        job,
        table,
        m,
        r,
        due,
        free: workers + u32::from(fault == Some(Fault::OneWorkerMore)),
        workers,
        clock: 0,
        work: 0,
        effects: 0,
        taken: Vec::new(),
        born: Vec::new(),
        again: 0,
    };
    loop {
        if let Err(end) = machine.choose().and_then(|()| machine.fall()) {
            return end;
        }
    }
}

/// Tests 1, 10, 11, 12 and 14.
fn accepted(
    fault: Option<Fault>,
    job: &[u8],
    workers: u32,
    [m, r, working]: [&[u32]; 3],
) -> Result<Job, u32> {
    let has = |wanted| fault == Some(wanted);
    let lengths_fit =
        working.len() == WORKING || has(Fault::LongWorking) && working.len() > WORKING;
    let fewest = if has(Fault::Workers0) { 0 } else { 1 };
    let most = MOST_WORKERS + u32::from(has(Fault::Workers17));
    let workers_fit = (fewest..=most).contains(&workers);
    if has(Fault::WorkersFirst) && !workers_fit {
        return Err(WORKERS_WRONG);
    }
    if !lengths_fit {
        return Err(1);
    }
    let job = runner::accepted(job, m, r).map_err(Stepped::status)?;
    if workers_fit {
        Ok(job)
    } else {
        Err(WORKERS_WRONG)
    }
}

type Goes = Result<(), Simulated>;

struct Machine<'a> {
    fault: Option<Fault>,
    job: Job,
    table: &'a Table,
    m: &'a mut [u32],
    r: &'a mut [u32],
    due: &'a mut [u32],
    free: u32,
    workers: u32,
    clock: u32,
    work: u64,
    effects: u32,
    /// The tasks under way in the order in which they were taken.
    taken: Vec<u32>,
    /// The tasks spawned in this tick.
    born: Vec<u32>,
    /// How often a refused effect was tried again.
    again: u32,
}

/// Some are never free again.
const MOST_AGAIN: u32 = 1_000;

impl Machine<'_> {
    fn has(&self, fault: Fault) -> bool {
        self.fault == Some(fault)
    }

    /// The unfinished tasks: children, the oldest first, before their spawner.
    fn order(&self) -> Vec<u32> {
        let mut tasks = tree::backward(self.m);
        tasks.reverse();
        tasks
    }

    fn under_way(&self, t: u32) -> bool {
        self.due[t as usize] != 0
    }

    fn ticks(&self, t: u32) -> u32 {
        let at = &self.r[RECORD * t as usize..];
        let i = self.job.procedures()[at[0] as usize].body[at[1] as usize];
        self.table[usize::from(i.operation)]
    }

    /// What a step would be answered.
    fn asked(&self, t: u32) -> Stepped {
        let (mut m, mut r) = (self.m.to_vec(), self.r.to_vec());
        runner::stepped(&self.job, &mut m, &mut r, t)
    }

    fn choose(&mut self) -> Goes {
        let mut tasks = self.order();
        if self.has(Fault::ChosenByNumber) {
            tasks.sort();
        }
        if self.has(Fault::ChosenBackward) {
            tasks.reverse();
        }
        if self.has(Fault::AnyUntaken) {
            self.refused_anywhere(&tasks)?;
        }
        for t in tasks {
            let late = self.has(Fault::ChildrenLate) && self.born.contains(&t);
            if self.free == 0 || self.under_way(t) || late {
                continue;
            }
            match self.asked(t) {
                Stepped::Moved(_) => {
                    self.take(t);
                    if self.has(Fault::OneForEachChoice) {
                        break;
                    }
                }
                Stepped::Refused(_) if self.has(Fault::PassedWhenChosen) => {}
                Stepped::Refused(number) => return Err(Simulated::Stopped(number)),
                Stepped::Waits if self.has(Fault::WaitEndsTheChoice) => break,
                Stepped::Waits => {}
            }
        }
        Ok(())
    }

    fn refused_anywhere(&self, tasks: &[u32]) -> Goes {
        for t in tasks.iter().filter(|t| !self.under_way(**t)) {
            if let Stepped::Refused(number) = self.asked(*t) {
                return Err(Simulated::Stopped(number));
            }
        }
        Ok(())
    }

    fn take(&mut self, t: u32) {
        let ticks = self.ticks(t);
        let early = u32::from(self.has(Fault::EffectATickEarly) && ticks > 1);
        self.due[t as usize] = self.clock + ticks - early;
        self.free -= 1;
        self.taken.push(t);
        if self.has(Fault::WorkWhenTaken) {
            self.work += u64::from(ticks);
        }
    }

    fn fall(&mut self) -> Goes {
        let ends = self.due.iter().copied().filter(|end| *end != 0);
        let Some(next) = ends.min() else {
            // Only a simulation that errs comes here.
            return Err(Simulated::Stopped(0));
        };
        if self.has(Fault::IdleIsWork) {
            self.work += u64::from(next - self.clock) * u64::from(self.free.min(self.workers));
        }
        self.clock = next;
        self.born.clear();
        let mut falling = match self.has(Fault::FallAsTaken) {
            true => self.taken.clone(),
            false => self.order(),
        };
        falling.retain(|t| self.due[*t as usize] == next);
        if self.has(Fault::FallByNumber) {
            falling.sort();
        }
        if self.has(Fault::FallBackward) {
            falling.reverse();
        }
        for t in falling {
            self.effect(t)?;
            if self.has(Fault::ChoiceBetweenEffects) {
                self.choose()?;
            }
        }
        match self.has(Fault::SpentAfterTheTick) && self.effects >= MOST_EFFECTS {
            true => Err(Simulated::Spent),
            false => Ok(()),
        }
    }

    fn effect(&mut self, t: u32) -> Goes {
        let ticks = self.ticks(t);
        let answer = runner::stepped(&self.job, self.m, self.r, t);
        if let Stepped::Refused(number) = answer {
            return self.refused(t, number);
        }
        self.due[t as usize] = 0;
        self.free += 1;
        self.taken.retain(|other| *other != t);
        if answer.status() == 40 {
            self.born.push(answer.value());
        }
        if !self.has(Fault::WorkWhenTaken) {
            self.work += u64::from(ticks);
        }
        self.effects += 1;
        self.ended()
    }

    fn refused(&mut self, t: u32, number: u32) -> Goes {
        if self.has(Fault::PassedWhenFalling) && self.again < MOST_AGAIN {
            self.again += 1;
            self.due[t as usize] += 1;
            return Ok(());
        }
        Err(Simulated::Stopped(number))
    }

    fn ended(&self) -> Goes {
        let most = match self.fault {
            Some(Fault::SpentLate) => MOST_EFFECTS + 1,
            Some(Fault::SpentEarly) => MOST_EFFECTS - 1,
            Some(Fault::SpentAfterTheTick) => u32::MAX,
            _ => MOST_EFFECTS,
        };
        let spent = self.effects == most;
        if spent && self.has(Fault::SpentBeforeEnded) {
            return Err(Simulated::Spent);
        }
        if status(self.m, 0) == FINISHED {
            // Of more steps there is no span; only a simulation that errs makes them.
            let span = one_pass_span::span(&self.job, self.table);
            return Err(Simulated::Ended {
                ticks: u64::from(self.clock),
                work: self.work,
                span: span.unwrap_or(0),
            });
        }
        match spent {
            true => Err(Simulated::Spent),
            false => Ok(()),
        }
    }
}
