//! What calls are made on: a job, the words of the core and those of the runner;
//! and random ones, reached by calls, by orders of tasks, and made otherwise.

use crate::scenes;
use host::damaged_jobs::damaged;
use host::job::{write, Procedure, MOST_PROCEDURES};
use host::layout::*;
use host::mutate::mutate;
use host::random::Random;
use host::random_bodies::{tame, wild};
use host::random_jobs::accepted;
use host::runner::{self, RECORD, RUNNER};
use host::sample::{likely_call, reached};
use host::{broken, foreign};

#[derive(Clone, Debug, PartialEq, Eq)]
pub struct Ground {
    pub job: Vec<u8>,
    pub core: Vec<u32>,
    pub runner: Vec<u32>,
}

impl Ground {
    /// Both memories pass, but for the job, which is now and then a damaged one.
    pub fn reached(r: &mut Random) -> Ground {
        let mut ground = match r.below(20) {
            0..=7 => {
                let core = reached(r);
                Ground::around(r, core)
            }
            8..=14 => Ground::by_orders(r),
            15..=17 => {
                let core = foreign::memory(r);
                Ground::around(r, core)
            }
            18 => {
                let list = broken::with_passing();
                let at = r.below(list.len() as u32) as usize;
                Ground::around(r, list[at].1.clone())
            }
            _ => {
                let at = r.below(5) as usize;
                Ground::around(r, scenes::all()[at].memory())
            }
        };
        if r.chance(8) {
            ground.job = damaged(r, &ground.job);
        }
        ground
    }

    /// A job under a random order of its tasks.
    fn by_orders(r: &mut Random) -> Ground {
        let (job, mut core, mut runner) = (accepted(r), vec![0; WORDS], vec![0; RUNNER]);
        runner::open(&job, &mut core, &mut runner);
        let mut ground = Ground { job, core, runner };
        let number = r.pick(&[0, 5, 30, 100, 300]);
        ground.steps(r, number);
        ground
    }

    /// So many steps of any tasks, on the model.
    fn steps(&mut self, r: &mut Random, number: u32) {
        for _ in 0..number {
            let tasks = unfinished(&self.core);
            if tasks.is_empty() {
                return;
            }
            runner::step(&self.job, &mut self.core, &mut self.runner, r.pick(&tasks));
        }
    }

    /// Some steps, or some calls of the core, which the runner's words do not
    /// follow.
    pub fn lead_on(&mut self, r: &mut Random) {
        let number = r.within(1, 12);
        if r.chance(85) {
            return self.steps(r, number);
        }
        for _ in 0..number {
            let kind = r.within(1, 6);
            likely_call(r, &self.core, kind).make(&mut self.core);
        }
    }

    /// A job of which this core's memory could be a moment: a procedure with the
    /// rights of each unfinished task, and each task somewhere in its body.
    fn around(r: &mut Random, core: Vec<u32>) -> Ground {
        let tasks = unfinished(&core);
        let mut all = vec![ALL_RIGHTS as u8];
        for t in &tasks {
            let own = rights(&core, *t) as u8;
            if !all.contains(&own) && all.len() < MOST_PROCEDURES {
                all.push(own);
            }
        }
        let procedures = procedures(r, &all);
        let mut runner = vec![0; RUNNER];
        for t in tasks {
            let own = all.iter().position(|p| u32::from(*p) == rights(&core, t));
            let own = own.unwrap_or(0);
            let instruction = r.below(procedures[own].body.len() as u32);
            let register = r.pick(&[0, 1, 5, u32::MAX]);
            let words = [own as u32, instruction, register];
            runner[RECORD * t as usize..][..RECORD].copy_from_slice(&words);
        }
        let job = write(r.within(1, 64) as u16, &procedures);
        Ground { job, core, runner }
    }

    /// A copy with words of both memories mutated; now and then one of another
    /// length.
    pub fn mutated(&self, r: &mut Random) -> Ground {
        let mut ground = self.clone();
        while ground == *self {
            mutate(r, &mut ground.core, &mut ground.runner);
        }
        if r.chance(1) {
            let (memory, due) = match r.below(2) {
                0 => (&mut ground.core, WORDS),
                _ => (&mut ground.runner, RUNNER),
            };
            memory.resize(r.pick(&[0, 1, due / 2, due - 1, due + 1, 2 * due]), 0);
        }
        ground
    }
}

pub fn unfinished(core: &[u32]) -> Vec<u32> {
    let fits = |t: &u32| status(core, *t) == UNFINISHED;
    (0..TASKS).filter(fits).collect()
}

fn procedures(r: &mut Random, all: &[u8]) -> Vec<Procedure> {
    let body = if r.chance(50) { wild } else { tame };
    let of = |own: usize| Procedure {
        rights: all[own],
        body: body(r, all, own),
    };
    (0..all.len()).map(of).collect()
}

#[cfg(test)]
mod tests {
    use super::*;
    use crate::linked_runner;

    /// What is reached passes wherever its job is one.
    #[test]
    fn reached_passes() {
        let r = &mut Random::new(3);
        let mut jobs = 0;
        for _ in 0..300 {
            let ground = Ground::reached(r);
            let answer =
                linked_runner::ready(&ground.job, &ground.core, &ground.runner, &mut [0; 6]);
            let number = answer >> 32;
            jobs += u32::from(number == 44);
            assert!([2, 10, 11, 12, 44].contains(&number), "{number}");
        }
        assert!(jobs > 250, "{jobs} of 300");
    }
}
