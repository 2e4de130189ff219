//! Random jobs: all pass the test, they come to every end and do every
//! operation, and assembling their disassembly gives them back. Damaged jobs:
//! they reach every rule of the test.

use host::asm::assemble;
use host::damaged_jobs::damaged;
use host::dis::disassemble;
use host::job::Job;
use host::random::Random;
use host::random_jobs::accepted;
use host::serial::{run, End};
use std::collections::BTreeMap;

fn job(seed: u64) -> (Job, Vec<u8>) {
    let bytes = accepted(&mut Random::new(seed));
    match Job::read(&bytes) {
        Ok(job) => (job, bytes),
        Err(refusal) => panic!("job {seed}: {refusal}"),
    }
}

#[test]
fn random_jobs_pass_and_come_back() {
    for seed in 0..3_000 {
        let (job, bytes) = job(seed);
        assert_eq!(job.bytes(), bytes, "job {seed}");
        let text = disassemble(&job);
        assert_eq!(assemble(&text), Ok(bytes), "job {seed}\n{text}");
    }
}

/// How often each comes among 2,000 jobs: the ends, and the answers of each
/// operation.
#[test]
fn random_jobs_are_varied() {
    let mut ends: BTreeMap<String, u32> = BTreeMap::new();
    let mut answers: BTreeMap<(u8, &str), u64> = BTreeMap::new();
    let mut with_ten_tasks = 0;
    for seed in 0..2_000 {
        let run = run(&job(seed).0);
        *ends.entry(format!("{:?}", run.end)).or_default() += 1;
        for event in &run.events {
            let kind = (event.operation, event.reply.word());
            *answers.entry(kind).or_default() += 1;
        }
        let tasks = run.events.iter().map(|event| event.task).max();
        let ends = run.end == End::Ended;
        with_ten_tasks += u32::from(ends && tasks.is_some_and(|last| last >= 10));
    }
    for (end, least) in [
        ("Ended", 1_200),
        ("Spent", 20),
        ("Refused(8)", 20),
        ("Refused(9)", 20),
    ] {
        assert!(ends[end] >= least, "{ends:?}");
    }
    assert_eq!(answers.len(), 14);
    assert!(answers.values().all(|times| *times >= 1_000), "{answers:?}");
    assert!(with_ten_tasks >= 100, "{with_ten_tasks}");
}

#[test]
fn damaged_jobs_reach_every_rule() {
    let mut times = BTreeMap::new();
    let mut passed = 0;
    for seed in 0..20_000 {
        let r = &mut Random::new(seed);
        let whole = accepted(r);
        let bytes = damaged(r, &whole);
        match Job::read(&bytes) {
            Ok(job) => {
                passed += 1;
                assert_eq!(job.bytes(), bytes);
                assert_eq!(assemble(&disassemble(&job)), Ok(bytes));
            }
            Err(refusal) => {
                let rule = format!("{:?}", refusal.breach);
                *times.entry(rule).or_insert(0) += 1;
            }
        }
    }
    assert_eq!(times.len(), 18, "{times:?}");
    assert!(times.values().all(|times| *times >= 20), "{times:?}");
    assert!((2_000..10_000).contains(&passed), "{passed}");
}
