//! The span of random jobs under random tables of ticks, and the ticks of their
//! simulations with 1 to 16 workers beside it.
//!
//! `spans SEED` makes all rounds: a round is a job and a table. The span in one pass is
//! compared with the naive one, and each simulation that reaches the end has to give
//! it, with ticks that are no less and no more than work and span allow. `spans SEED
//! ROUND` makes one round again, as the line of a difference names it.

use host::crowded_jobs::crowded;
use host::job::Job;
use host::layout::WORDS;
use host::one_pass_span;
use host::random::Random;
use host::random_jobs::accepted;
use host::random_pipelines::piped;
use host::random_stages::staged;
use host::random_tables::random_table;
use host::runner::RUNNER;
use host::simulate::{simulate, Simulated, Table, MOST_WORKERS, WORKING};
use host::span::{bounded, Run};
use std::process::ExitCode;

const ROUNDS: u64 = 9_000;
/// Jobs that have to come to their end, with at least one number of workers.
const LEAST_JOBS: u64 = 5_000;
/// Simulations with several workers that have to take more ticks than the span.
const LEAST_MORE: u64 = 3_000;
/// Jobs with more than `STEPS` steps that have to come.
const LEAST_LONG: u64 = 50;
/// Steps of a job; one in so many may have more.
const STEPS: usize = 400;
const MORE_STEPS: usize = 3_000;
const MORE: u32 = 5;

#[derive(Default)]
struct Counts {
    jobs: u64,
    /// Jobs of more than `STEPS` steps.
    long: u64,
    simulations: u64,
    /// Simulations with several workers and more ticks than the span.
    more: u64,
}

struct Spans {
    core: Vec<u32>,
    runner: Vec<u32>,
    working: Vec<u32>,
    counts: Counts,
}

fn some_job(r: &mut Random) -> Vec<u8> {
    match r.below(10) {
        0 => crowded(r),
        1 => {
            let steps = r.within(110, STEPS as u32);
            piped(r, steps)
        }
        2..=4 => accepted(r),
        _ => staged(r),
    }
}

impl Spans {
    fn round(&mut self, seed: u64, round: u64) -> Result<(), String> {
        let r = &mut Random::new(seed.wrapping_mul(1_000_003).wrapping_add(round));
        let (job, table) = (some_job(r), random_table(r));
        let most = if r.below(MORE) == 0 {
            MORE_STEPS
        } else {
            STEPS
        };
        let read = Job::read(&job).map_err(|refusal| format!("{refusal:?}"))?;
        let Some(run) = Run::of(&read, most) else {
            return Ok(());
        };
        let due = run.span(&table);
        let told = |what: String| {
            let bytes: String = job.iter().map(|byte| format!("{byte:02x}")).collect();
            format!("seed {seed}, round {round}: {what}\n  table {table:?}, job {bytes}")
        };
        let given = one_pass_span::span(&read, &table);
        if given != Some(due) {
            return Err(told(format!("span {given:?} in one pass, naively {due}")));
        }
        let before = self.counts.simulations;
        for workers in 1..=MOST_WORKERS {
            self.simulated(&job, workers, &table, due).map_err(told)?;
        }
        if self.counts.simulations > before {
            self.counts.jobs += 1;
            self.counts.long += u64::from(run.steps.len() > STEPS);
        }
        Ok(())
    }

    fn simulated(
        &mut self,
        job: &[u8],
        workers: u32,
        table: &Table,
        due: u64,
    ) -> Result<(), String> {
        let (m, r, working) = (&mut self.core, &mut self.runner, &mut self.working);
        let given = simulate(job, workers, table, m, r, working);
        let Simulated::Ended { ticks, work, span } = given else {
            return Ok(());
        };
        if span != due || !bounded(workers, ticks, work, span) {
            return Err(format!("{workers} workers: {given:?}, span {due} naively"));
        }
        let counts = &mut self.counts;
        counts.simulations += 1;
        counts.more += u64::from(workers > 1 && span < ticks);
        Ok(())
    }

    fn all(&mut self, seed: u64) -> Result<(), String> {
        for round in 0..ROUNDS {
            self.round(seed, round)?;
        }
        let counts = &self.counts;
        println!(
            "{} jobs, {} of them with more than {STEPS} steps: one pass and naive spans agree",
            counts.jobs, counts.long
        );
        println!(
            "{} simulations ended, all within the bounds; {} with several workers took more ticks than the span",
            counts.simulations, counts.more
        );
        let enough =
            counts.jobs >= LEAST_JOBS && counts.long >= LEAST_LONG && counts.more >= LEAST_MORE;
        match enough {
            true => Ok(()),
            false => Err("some of these came too seldom".to_string()),
        }
    }
}

fn main() -> ExitCode {
    let words: Vec<String> = std::env::args().skip(1).collect();
    let numbers: Vec<u64> = words.iter().flat_map(|word| word.parse()).collect();
    let mut spans = Spans {
        core: vec![0; WORDS],
        runner: vec![0; RUNNER],
        working: vec![0; WORKING],
        counts: Counts::default(),
    };
    let outcome = match numbers[..] {
        _ if numbers.len() != words.len() => Err("spans SEED [ROUND]".to_string()),
        [seed] => spans.all(seed),
        [seed, round] => spans.round(seed, round),
        _ => Err("spans SEED [ROUND]".to_string()),
    };
    host::command::status(outcome)
}
