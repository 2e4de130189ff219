//! Every outcome of a simulation, on small jobs, on the linked library and on the
//! model, with the answer named here; and libraries that err, each of which is
//! found.

use crate::linked_jobs;
use crate::linked_simulation::{self, packed};
use crate::simulation_pair::{Library, SimulationPair};
use host::erring_simulations::{self, Fault};
use host::erring_spans;
use host::job::Job;
use host::layout::WORDS;
use host::runner::RUNNER;
use host::simulate::Simulated::{self, Ended, Refused};
use host::simulate::{ENDS, OURS, WORKING};
use host::span::Run;
use host::span_jobs;
use host::timed_jobs::{self, TimedJob};

const LENGTHS: [usize; 3] = [WORDS, RUNNER, WORKING];

fn pair_of(word: u32, lengths: [usize; 3]) -> SimulationPair {
    SimulationPair::new(lengths.map(|length| vec![word; length]))
}

fn small_ones() -> impl Iterator<Item = TimedJob> {
    timed_jobs::all().into_iter().chain(span_jobs::all())
}

fn small(name: &str) -> TimedJob {
    let mut all = small_ones();
    all.find(|job| job.name == name).expect("a small job")
}

/// Ended, spent, 8 and 9, when chosen and when an effect falls, with each number of
/// workers that the job names; spans by each rule; on words that the one before left.
#[test]
fn small_jobs() {
    let mut pair = pair_of(u32::MAX, LENGTHS);
    for job in small_ones() {
        for (workers, due) in &job.answers {
            let given = pair.simulate(&job.job, *workers);
            assert_eq!(given, Ok(*due), "{}, {workers} workers", job.name);
        }
    }
}

#[test]
fn document_01() {
    let (mut pair, job) = (pair_of(7, LENGTHS), small("document 01").job);
    for workers in 1..=16 {
        let ticks = if workers == 1 { 33 } else { 23 };
        let (work, span) = (33, 23);
        assert_eq!(
            pair.simulate(&job, workers),
            Ok(Ended { ticks, work, span })
        );
    }
}

/// A span where the run without overlap is stopped with 9: 5,000 values in a queue.
#[test]
fn bounds_aside() {
    let job = span_jobs::five_thousand();
    let mut working = vec![7; linked_jobs::WORKING];
    let mut answers = vec![7; linked_jobs::ANSWERS];
    let serially = linked_jobs::run_serially(&job.job, &mut working, &mut answers);
    assert_eq!(serially >> 32, 9);
    let mut pair = pair_of(7, LENGTHS);
    for workers in [1, 2, 16] {
        let due = job.due(workers);
        assert_eq!(pair.simulate(&job.job, workers), Ok(due), "{workers}");
    }
    assert_eq!(job.due(2).out(), [30_015, 50_020, 30_015]);
}

/// 14, behind 1, 10, 11 and 12.
#[test]
fn refused() {
    let job = small("document 01").job;
    let with = |at: usize, byte| {
        let mut job = job.clone();
        job[at] = byte;
        job
    };
    for workers in [0, 17, 18, 256, 1 << 16 | 1, u32::MAX] {
        let mut pair = pair_of(7, LENGTHS);
        assert_eq!(pair.simulate(&job, workers), Ok(Refused(14)));
        for (bytes, number) in [(vec![0; 3], 10), (with(8, 3), 11), (with(28, 11), 12)] {
            assert_eq!(pair.simulate(&bytes, workers), Ok(Refused(number)));
        }
    }
    for at in 0..3 {
        for other in [LENGTHS[at] - 1, LENGTHS[at] + 1, 0] {
            let mut lengths = LENGTHS;
            lengths[at] = other;
            let mut pair = pair_of(7, lengths);
            for (bytes, workers) in [(&job[..], 1), (&job[..], 0), (&[0; 3][..], 0)] {
                assert_eq!(pair.simulate(bytes, workers), Ok(Refused(1)));
            }
        }
    }
}

/// What the library would answer with this fault.
fn erring(
    fault: Fault,
    job: &[u8],
    workers: u32,
    lent: [&mut [u32]; 3],
    out: &mut [u64; 3],
) -> u64 {
    let given = erring_simulations::simulate(Some(fault), job, workers, &OURS, lent);
    *out = given.out();
    packed(given)
}

fn found(library: Library, name: &str, workers: u32) -> String {
    let mut pair = pair_of(7, LENGTHS);
    pair.library = library;
    let given = pair.simulate(&small(name).job, workers);
    given.expect_err("the error is not found")
}

/// Errors of the answer, and errors that the words alone show.
#[test]
fn libraries_that_err_are_found() {
    let by_number: Library = |j, w, l, o| erring(Fault::FallByNumber, j, w, l, o);
    let passes_nine: Library = |j, w, l, o| erring(Fault::PassedWhenChosen, j, w, l, o);
    let any_untaken: Library = |j, w, l, o| erring(Fault::AnyUntaken, j, w, l, o);
    let after_the_tick: Library = |j, w, l, o| erring(Fault::SpentAfterTheTick, j, w, l, o);
    for (library, name, workers, due) in [
        (by_number, "two effects of one tick", 2, "status 9,"),
        (passes_nine, "9 when chosen", 2, "status 0,"),
        (any_untaken, "9 when chosen", 1, "status 9,"),
        (after_the_tick, "spent within a tick", 2, "word 0 of"),
    ] {
        let what = found(library, name, workers);
        assert!(what.starts_with(due), "{name}: {what}");
    }
}

/// What the library would give with this fault in its span.
fn with_span(
    fault: erring_spans::Fault,
    job: &[u8],
    workers: u32,
    lent: [&mut [u32]; 3],
    out: &mut [u64; 3],
) -> u64 {
    let answer = linked_simulation::simulate(job, workers, lent, out);
    let run = Run::of(&Job::read(job).expect("a job"), 2_000).expect("it ends");
    out[2] = erring_spans::span(Some(fault), &run, &OURS);
    answer
}

#[test]
fn spans_that_err_are_found() {
    use erring_spans::Fault::*;
    let no_pushers: Library = |j, w, l, o| with_span(PushersLeftOut, j, w, l, o);
    let all_pushers: Library = |j, w, l, o| with_span(PushersUpToTheInstruction, j, w, l, o);
    let no_push: Library = |j, w, l, o| with_span(PushLeftOut, j, w, l, o);
    let no_children: Library = |j, w, l, o| with_span(ChildrenLeftOut, j, w, l, o);
    let no_last: Library = |j, w, l, o| with_span(LastNotCounted, j, w, l, o);
    for (library, name, due) in [
        (no_pushers, "a pusher that pushes nothing", "span 29,"),
        (all_pushers, "a pusher behind the push", "span 55,"),
        (no_push, "a value pushed late", "span 22,"),
        (no_children, "a child", "span 17,"),
        (no_last, "document 01", "span 21,"),
    ] {
        let what = found(library, name, 2);
        assert!(what.contains(due), "{name}: {what}");
    }
}

/// Errors in what is handed out beside the answer.
#[test]
fn libraries_that_hand_out_more_are_found() {
    let out_of_spent: Library = |job, workers, lent, out| {
        let answer = linked_simulation::simulate(job, workers, lent, out);
        out[1] |= answer >> 32;
        answer
    };
    let span_of_spent: Library = |job, workers, lent, out| {
        let answer = linked_simulation::simulate(job, workers, lent, out);
        out[2] |= answer >> 32;
        answer
    };
    let with_a_value: Library = |job, workers, lent, out| {
        let answer = linked_simulation::simulate(job, workers, lent, out);
        answer | out[0]
    };
    let nine = "9 when chosen";
    for (library, name, workers, due) in [
        (out_of_spent, nine, 2, "status 9, value 0, ticks 0, work 9,"),
        (
            span_of_spent,
            nine,
            2,
            "status 9, value 0, ticks 0, work 0, span 9,",
        ),
        (with_a_value, "document 01", 1, "status 0, value 33,"),
    ] {
        let what = found(library, name, workers);
        assert!(what.starts_with(due), "{name}: {what}");
    }
}

/// Errors in the words lent, and outside them. What stands behind the ends among the
/// words for working is free.
#[test]
fn libraries_that_write_are_found() {
    let working_kept: Library = |job, workers, [core, runner, working], out| {
        let answer = linked_simulation::simulate(job, workers, [core, runner, working], out);
        working[ENDS - 1] = 1;
        answer
    };
    let behind_the_ends: Library = |job, workers, [core, runner, working], out| {
        let answer = linked_simulation::simulate(job, workers, [core, runner, working], out);
        working[ENDS..].fill(1);
        answer
    };
    let a_word_outside: Library = |job, workers, lent, out| {
        // The guards are there for this.
        unsafe { *lent[2].as_mut_ptr().add(lent[2].len()) = 0 };
        linked_simulation::simulate(job, workers, lent, out)
    };
    for (library, workers, due) in [
        (working_kept, 0, "word 127 of those for working"),
        (a_word_outside, 2, "words outside those lent"),
    ] {
        let what = found(library, "document 01", workers);
        assert!(what.starts_with(due), "{what}");
    }
    let (mut pair, job) = (pair_of(7, LENGTHS), small("document 01"));
    pair.library = behind_the_ends;
    for workers in [0, 2] {
        assert!(pair.simulate(&job.job, workers).is_ok());
    }
}

/// The numbers of words are the same in the header, in the binding and in the model.
#[test]
fn numbers_of_words() {
    use hyperqueue::simulation;
    let header = include_str!("../../../include/hyperqueue.h");
    assert!(header.contains(&format!("#define HQ_SIMULATE_WORDS {WORKING}\n")));
    assert_eq!((simulation::WORDS, simulation::ENDS), (WORKING, ENDS));
    assert!(header.contains("uint64_t out[3]);"));
}

/// The binding's answers are the model's.
#[test]
fn binding() {
    use hyperqueue::simulation;
    for job in small_ones() {
        for (workers, due) in &job.answers {
            let [mut core, mut runner, mut working] = LENGTHS.map(|length| vec![7; length]);
            let given =
                simulation::simulate(&job.job, *workers, &mut core, &mut runner, &mut working);
            assert_eq!(as_model(given), *due, "{}", job.name);
        }
    }
}

fn as_model(given: hyperqueue::simulation::Simulated) -> Simulated {
    use hyperqueue::simulation::Simulated as Given;
    match given {
        Given::Ended { ticks, work, span } => Ended { ticks, work, span },
        Given::Spent => Simulated::Spent,
        Given::Stopped(number) => Simulated::Stopped(number),
        Given::Refused(number) => Refused(number),
    }
}
