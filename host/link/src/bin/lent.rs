//! Calls of the linked library alone, on words lent from heap blocks of exactly
//! their size, to be run under a checker of memory: reading or writing a word
//! outside those lent is an error there, and so is reading one never written.
//!
//! `lent SEED MEMORIES` makes every call on so many memories, half of them
//! mutated. Three errors on purpose: `lent beyond` claims one word more than it
//! lends, `lent values` one value more of a run, `lent unset` makes a call on
//! words that nobody has written.

use host::call::Call;
use host::job::Job;
use host::layout::WORDS;
use host::overlap::Plain;
use host::random::Random;
use host::random_jobs::accepted;
use host::random_stages::staged;
use host::random_traces::of_a_run;
use host::runner::RUNNER;
use host::simulate;
use hyperqueue::jobs::run_serially_unset;
use hyperqueue::runner::run_unset;
use hyperqueue::simulation::simulate_unset;
use hyperqueue::traces::replay_unset;
use link::fuzzing::{calls, Made};
use link::ground::Ground;
use link::linked_jobs::{job_test, ANSWERS, WORKING};
use link::linked_runner::Map;
use link::rounds::random_of;
use link::{linked, linked_runner};
use std::mem::MaybeUninit;
use std::process::ExitCode;

/// One of so many memories is followed by calls on words not yet written.
const UNSET_EVERY: u64 = 10;
/// Steps of a job that is simulated.
const SHORT: u64 = 200;

/// Blocks with no word to spare.
struct Lent {
    job: Box<[u8]>,
    core: Box<[u32]>,
    runner: Box<[u32]>,
    map: Box<Map>,
}

impl Lent {
    fn new(ground: &Ground) -> Lent {
        Lent {
            job: Box::from(&ground.job[..]),
            core: Box::from(&ground.core[..]),
            runner: Box::from(&ground.runner[..]),
            map: Box::new([9; 6]),
        }
    }

    /// The number of the answer.
    fn make(&mut self, call: &Made) -> u64 {
        let Lent {
            job,
            core,
            runner,
            map,
        } = self;
        let answer = match call {
            Made::Core(call) => core_call(call, core),
            Made::Open => linked_runner::open(job, core, runner),
            Made::Step(task) => linked_runner::step(job, core, runner, *task),
            Made::Ready => linked_runner::ready(job, core, runner, map),
        };
        answer >> 32
    }
}

/// A call of the core; the values of a run in a block of exactly their size.
fn core_call(call: &Call, core: &mut [u32]) -> u64 {
    let Some((task, queue, values)) = call.as_push() else {
        return linked::make(call, core);
    };
    let values: Box<[u32]> = Box::from(values);
    hyperqueue::core::push(core, task, queue, &values).packed()
}

/// Every call of core and runner on a ground, and the test of its job.
fn every_call(r: &mut Random, ground: &Ground, made: &mut [u64; 2]) {
    let mut lent = Lent::new(ground);
    job_test(&lent.job);
    for call in calls(r, ground) {
        let number = lent.make(&call);
        made[0] += 1;
        // Only these leave the words as they were for certain.
        if !(1..=32).contains(&number) {
            made[1] += 1;
            lent = Lent::new(ground);
        }
    }
}

/// A list of steps, whose answers are all written; then one with a place too
/// few, which is refused.
fn list_of_steps(r: &mut Random, job: &[u8]) {
    let mut core = Box::new_uninit_slice(WORDS);
    let mut runner = Box::new_uninit_slice(RUNNER);
    let tasks: Box<[u32]> = (0..r.within(1, 60))
        .map(|n| r.below(6.min(n + 1)))
        .collect();
    let mut answers = Box::new_uninit_slice(tasks.len());
    let _ = run_unset(job, &mut core, &mut runner, &tasks, &mut answers);
    let _ = run_unset(job, &mut core, &mut runner, &tasks, &mut answers[1..]);
    let answers = unsafe { answers.assume_init() };
    let moved = answers.iter().filter(|answer| **answer >> 32 > 32).count();
    assert!(moved > 0, "the top of a job can make its first step");
}

/// Replays on words that nobody has written, of traces in blocks of exactly
/// their size: as they are printed, begun and damaged; and with a word too few.
fn replays(r: &mut Random) {
    for case in of_a_run(r) {
        let (job, trace) = (case.job.into_boxed_slice(), case.trace.into_boxed_slice());
        let mut core = Box::new_uninit_slice(case.words);
        let mut runner = Box::new_uninit_slice(case.runner);
        let _ = replay_unset(&job, &trace, &mut core, &mut runner);
        let _ = replay_unset(&job, &trace, &mut core[1..], &mut runner);
    }
}

/// Simulations on words that nobody has written, where all places of the answer are
/// written whatever it is; with a word too few, and with no workers.
fn simulations(r: &mut Random) {
    let job = short_job(r).into_boxed_slice();
    let workers = r.within(1, 16);
    for (workers, short) in [(workers, 0), (workers, 1), (0, 0)] {
        let mut core = Box::new_uninit_slice(WORDS);
        let mut runner = Box::new_uninit_slice(RUNNER);
        let mut working = Box::new_uninit_slice(simulate::WORKING - short);
        let mut out = Box::new([MaybeUninit::uninit(); 3]);
        let answer = simulate_unset(
            &job,
            workers,
            &mut core,
            &mut runner,
            &mut working,
            &mut out,
        );
        let [ticks, work, span] = out.map(|number| unsafe { number.assume_init() });
        assert!(answer.status == 0 || ticks + work + span == 0, "zeros");
    }
}

/// A random job that ends soon.
fn short_job(r: &mut Random) -> Vec<u8> {
    loop {
        let job = if r.chance(50) { accepted(r) } else { staged(r) };
        if Plain::run(&Job::read(&job).expect("a job"), SHORT).is_some() {
            return job;
        }
    }
}

/// What opens, replays, simulates and runs a job serially, on words that nobody
/// has written: the checker sees a word that is read before it is written. The
/// calls behind an opening find all words written.
fn on_unset_words(r: &mut Random) {
    let job = accepted(r).into_boxed_slice();
    let mut core = Box::new_uninit_slice(WORDS);
    let _ = hyperqueue::core::open_unset(&mut core, r.within(1, 32), r.within(4, 256));
    let mut core = Box::new_uninit_slice(WORDS);
    let mut runner = Box::new_uninit_slice(RUNNER);
    let _ = hyperqueue::runner::open_unset(&job, &mut core, &mut runner);
    // Both were opened, as the job is one.
    let ground = Ground {
        core: unsafe { core.assume_init() }.into_vec(),
        runner: unsafe { runner.assume_init() }.into_vec(),
        job: job.to_vec(),
    };
    every_call(r, &ground, &mut [0; 2]);
    list_of_steps(r, &job);
    replays(r);
    simulations(r);
    let mut working = Box::new_uninit_slice(WORKING);
    let mut answers = Box::new_uninit_slice(ANSWERS);
    let _ = run_serially_unset(&job, &mut working, &mut answers);
    // A word too few is refused.
    let _ = run_serially_unset(&job, &mut working[1..], &mut answers);
}

fn run(seed: u64, memories: u64) {
    let mut made = [0; 2];
    for round in 0..memories {
        let r = &mut random_of(seed, 0, round as u32);
        let mut ground = Ground::reached(r);
        if r.chance(50) {
            ground = ground.mutated(r);
        }
        every_call(r, &ground, &mut made);
        if round % UNSET_EVERY == 0 {
            on_unset_words(r);
        }
    }
    let [calls, moved] = made;
    println!("seed {seed}: {calls} calls on {memories} memories, {moved} of them moved");
}

/// A call on words that nobody has written.
fn unset() {
    // The error is the purpose: the checker has to see it.
    let mut words = unsafe { Box::new_uninit_slice(WORDS).assume_init() };
    println!("answer {}", hyperqueue::core::sync(&mut words, 0).status);
}

/// Opens a core on a block that is one word too short.
fn beyond() {
    let mut block = vec![0u32; WORDS - 1].into_boxed_slice();
    // The error is the purpose: the checker has to see it.
    let words = unsafe { std::slice::from_raw_parts_mut(block.as_mut_ptr(), WORDS) };
    println!("answer {}", hyperqueue::core::open(words, 4, 64).status);
}

/// Pushes a run from a block that is one value too short.
fn values() {
    let block: Box<[u32]> = Box::new([5; 40]);
    // The error is the purpose: the checker has to see it.
    let run = unsafe { std::slice::from_raw_parts(block.as_ptr(), block.len() + 1) };
    let mut words = vec![0; WORDS];
    let opened = hyperqueue::core::open(&mut words, 4, 64).status;
    let pushed = hyperqueue::core::push(&mut words, 0, 0, run).status;
    println!("answers {opened} {pushed}");
}

fn main() -> ExitCode {
    let words: Vec<String> = std::env::args().skip(1).collect();
    let words: Vec<&str> = words.iter().map(String::as_str).collect();
    let numbers: Vec<u64> = words.iter().flat_map(|word| word.parse()).collect();
    match (&words[..], &numbers[..]) {
        (["beyond"], _) => beyond(),
        (["unset"], _) => unset(),
        (["values"], _) => values(),
        ([_, _], [seed, memories]) => run(*seed, *memories),
        _ => {
            eprintln!("lent SEED MEMORIES, lent beyond, lent unset or lent values");
            return ExitCode::from(2);
        }
    }
    ExitCode::SUCCESS
}
