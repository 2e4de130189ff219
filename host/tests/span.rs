//! Spans of the model: small jobs with theirs, naively and in one pass; a job that the
//! serial runner's bounds stop; longest chains; and what is promised of the ticks, on
//! random jobs with random tables.

use host::asm::assemble;
use host::chain;
use host::job::Job;
use host::layout::WORDS;
use host::one_pass_span;
use host::operations::RETURN;
use host::random::Random;
use host::random_jobs::accepted;
use host::random_stages::staged;
use host::random_tables::random_table;
use host::runner::RUNNER;
use host::schedule::Schedule;
use host::serial::{self, End};
use host::simulate::*;
use host::span::{bounded, ceiling, Run};
use host::timed_jobs::TimedJob;
use host::{span_jobs, timed_jobs};
use std::collections::BTreeMap;

/// Steps of the jobs whose steps are all compared with each other.
const MOST_STEPS: usize = 2_000;

fn read(job: &[u8]) -> Job {
    Job::read(job).expect("a job")
}

fn simulated(job: &[u8], workers: u32, table: &Table) -> Simulated {
    let [mut m, mut r, mut working] = [WORDS, RUNNER, WORKING].map(|length| vec![0; length]);
    simulate(job, workers, table, &mut m, &mut r, &mut working)
}

fn naive(job: &[u8], table: &Table) -> Option<u64> {
    Run::of(&read(job), MOST_STEPS).map(|run| run.span(table))
}

/// Ticks, work and span.
#[test]
fn document_01() {
    let job = assemble(include_str!("../../jobs/document-01.txt")).expect("a job");
    for (workers, due) in [(1, [33, 33, 23]), (2, [23, 33, 23]), (16, [23, 33, 23])] {
        assert_eq!(simulated(&job, workers, &OURS).out(), due);
    }
    assert_eq!(naive(&job, &OURS), Some(23));
    let ceilings = [1, 2, 3, 16].map(|workers| ceiling(workers, 33, 23));
    assert_eq!(ceilings, [33, 28, 26, 23]);
}

/// The span of a small job, if it ends with some number of workers.
fn span_due(job: &TimedJob) -> Option<u64> {
    let due = job.answers.iter().map(|(_, answer)| answer.out()[2]);
    due.max().filter(|span| *span > 0)
}

/// With every number of workers, naively and in one pass.
#[test]
fn small_jobs() {
    for job in span_jobs::all() {
        for workers in 1..=MOST_WORKERS {
            let given = simulated(&job.job, workers, &OURS);
            assert_eq!(given, job.due(workers), "{}, {workers}", job.name);
        }
    }
    for job in span_jobs::all().into_iter().chain(timed_jobs::all()) {
        let (name, due) = (job.name, span_due(&job));
        assert_eq!(one_pass_span::span(&read(&job.job), &OURS), due, "{name}");
        // One that ends with its 65,535th effect is too long for this.
        if due.is_none_or(|span| span < 65_535) {
            assert_eq!(naive(&job.job, &OURS), due, "{name}");
        }
    }
}

/// The serial runner has room for 4,096 values; the span of 5,000 is listed.
#[test]
fn bounds_aside() {
    let job = span_jobs::five_thousand();
    assert_eq!(read(&job.job).length(), 64);
    assert_eq!(serial::run(&read(&job.job)).end, End::Refused(9));
    for workers in 1..=MOST_WORKERS {
        let given = simulated(&job.job, workers, &OURS);
        assert_eq!(given, job.due(workers), "{workers}");
    }
    assert_eq!(job.due(2).out(), [30_015, 50_020, 30_015]);
}

/// Zeros for all three where the end is not reached.
#[test]
fn only_at_the_end() {
    let all = timed_jobs::all();
    let named = |name| all.iter().find(|job| job.name == name).expect("a job");
    for (name, workers, due) in [
        ("9 when chosen", 2, Simulated::Stopped(9)),
        ("8 when its effect falls", 2, Simulated::Stopped(8)),
        ("spent before its last effect", 1, Simulated::Spent),
        ("document 01", 17, Simulated::Refused(14)),
    ] {
        let given = simulated(&named(name).job, workers, &OURS);
        assert_eq!((given, given.out()), (due, [0; 3]), "{name}");
    }
    // With one worker the first of them does end, and then has a span.
    let job = &named("9 when chosen").job;
    assert_eq!(simulated(job, 1, &OURS).out(), [789, 789, 412]);
    let endless = &named("spent").job;
    assert_eq!(one_pass_span::span(&read(endless), &OURS), None);
    assert_eq!(chain::longest(&read(endless), &OURS), None);
}

/// Each step of a longest chain needs the one before; its ticks are the span; it ends
/// with the top's return.
fn is_longest_chain(run: &Run, steps: &[usize], table: &Table) {
    for pair in steps.windows(2) {
        assert!(run.needs(pair[1]).contains(&pair[0]), "{pair:?}");
    }
    let ticks: u64 = steps.iter().map(|i| run.ticks(*i, table)).sum();
    assert_eq!(ticks, run.span(table));
    let last = *steps.last().expect("a step");
    assert_eq!(last + 1, run.steps.len());
    assert_eq!(
        (run.steps[last].task, run.steps[last].operation),
        (0, RETURN)
    );
}

/// Random jobs that end by so many steps, with their plain runs.
fn random_jobs(seeds: std::ops::Range<u64>, most: usize) -> impl Iterator<Item = (Vec<u8>, Run)> {
    let made = seeds.map(|seed| match seed % 2 {
        0 => accepted(&mut Random::new(seed)),
        _ => staged(&mut Random::new(seed)),
    });
    made.filter_map(move |job| Run::of(&read(&job), most).map(|run| (job, run)))
}

#[test]
fn longest_chains() {
    for job in span_jobs::all() {
        let read = read(&job.job);
        let run = Run::of(&read, MOST_STEPS).expect("it ends");
        let steps = chain::longest(&read, &OURS).expect("it ends");
        is_longest_chain(&run, &steps, &OURS);
        assert_eq!(chain::places(&read, &steps).len(), steps.len());
    }
    for (at, (job, run)) in random_jobs(0..400, 300).enumerate() {
        let table = random_table(&mut Random::new(at as u64));
        let steps = chain::longest(&read(&job), &table).expect("it ends");
        is_longest_chain(&run, &steps, &table);
    }
}

/// The span is the same whatever the workers, naively and in one pass; the ticks are
/// never less, and never above the ceiling.
#[test]
fn random_jobs_with_random_tables() {
    let (mut ended, mut between) = (0, 0);
    for (at, (job, run)) in random_jobs(0..500, 400).enumerate() {
        let table = random_table(&mut Random::new(at as u64));
        let due = run.span(&table);
        assert_eq!(one_pass_span::span(&read(&job), &table), Some(due));
        for workers in 1..=MOST_WORKERS {
            let Simulated::Ended { ticks, work, span } = simulated(&job, workers, &table) else {
                continue;
            };
            assert_eq!(span, due, "job {at}, {workers}");
            assert!(bounded(workers, ticks, work, span), "job {at}, {workers}");
            assert!(ticks <= ceiling(workers, work, span));
            ended += 1;
            between += u32::from(span < ticks && workers > 1);
        }
    }
    println!("{ended} simulations ended, {between} of them with several workers and more ticks");
    assert!(ended > 4_000 && between > 100, "{ended}, {between}");
}

/// The steps of the serial run with start and end of their bars; none where the
/// simulation does not reach the end. And how many workers were busy at most.
fn bars(job: &[u8], workers: u32, table: &Table) -> Option<(Vec<(u32, u32)>, usize)> {
    let mut lent = [WORDS, RUNNER, WORKING].map(|length| vec![0; length]);
    let slices = lent.each_mut().map(|words| &mut words[..]);
    let mut schedule = Schedule::default();
    let Simulated::Ended { .. } = watched(job, workers, table, slices, &mut schedule) else {
        return None;
    };
    let placed = schedule.places().into_iter().zip(&schedule.bars);
    let times: BTreeMap<_, _> = placed.map(|(at, bar)| (at, (bar.start, bar.end))).collect();
    let steps: Vec<usize> = (0..schedule.bars.len()).collect();
    let mut all = vec![(0, 0); steps.len()];
    for (place, step) in chain::places(&read(job), &steps) {
        all[step] = times[&place];
    }
    Some((all, schedule.workers()))
}

/// In a simulation each instruction is taken when all that it needs has been made, and
/// where a worker is always free, at once: it needs these steps and no others.
#[test]
fn needs_and_nothing_else() {
    let (mut later, mut at_once) = (0, 0);
    for (at, (job, run)) in random_jobs(0..600, 300).enumerate() {
        let table = random_table(&mut Random::new(at as u64));
        for workers in [1, 2, 5, 16] {
            let Some((bars, busy)) = bars(&job, workers, &table) else {
                continue;
            };
            for (i, (start, _)) in bars.iter().enumerate() {
                let needed = run.needs(i).into_iter().map(|j| bars[j].1);
                let due = needed.max().unwrap_or(0);
                assert!(due <= *start, "job {at}, {workers} workers, step {i}");
                if busy < workers as usize {
                    assert_eq!(due, *start, "job {at}, {workers} workers, step {i}");
                    at_once += 1;
                }
                later += u32::from(due < *start);
            }
        }
    }
    println!("{at_once} instructions at once, {later} later than their needs");
    assert!(at_once > 30_000 && later > 1_000, "{at_once}, {later}");
}
