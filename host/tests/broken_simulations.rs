//! That the small jobs can show an error of the simulation: ones that err in one
//! place, each beside the small job that is answered otherwise then.

use host::erring_simulations::{self, Fault};
use host::layout::WORDS;
use host::runner::RUNNER;
use host::simulate::{Simulated, OURS, WORKING};
use host::timed_jobs::{self, TimedJob};
use host::vectors::level_6;
use Fault::*;

/// The answer, and the words that it leaves.
fn simulated(fault: Option<Fault>, job: &[u8], workers: u32) -> (Simulated, [Vec<u32>; 3]) {
    let mut lent = [WORDS, RUNNER, WORKING].map(|length| vec![7; length]);
    let slices = lent.each_mut().map(|words| &mut words[..]);
    let given = erring_simulations::simulate(fault, job, workers, &OURS, slices);
    (given, lent)
}

fn job_named(name: &str) -> TimedJob {
    let mut all = timed_jobs::all().into_iter();
    all.find(|job| job.name == name).expect("a small job")
}

/// Each with a small job and workers for which its answer is another.
const SHOWN: [(Fault, &str, u32); 21] = [
    (ChosenByNumber, "9 when chosen", 1),
    (ChosenBackward, "9 when chosen", 1),
    (WaitEndsTheChoice, "8 when chosen", 2),
    (OneForEachChoice, "document 01", 2),
    (PassedWhenChosen, "9 when chosen", 2),
    (PassedWhenFalling, "9 when its effect falls", 3),
    (PassedWhenFalling, "8 when its effect falls", 2),
    (AnyUntaken, "9 when chosen", 1),
    (OneWorkerMore, "document 01", 1),
    (EffectATickEarly, "document 01", 2),
    (FallByNumber, "two effects of one tick", 2),
    (FallByNumber, "effects of one tick", 3),
    (FallByNumber, "effects of one tick, as taken", 3),
    (FallAsTaken, "effects of one tick, as taken", 3),
    (FallBackward, "a pop ahead of two pushes", 3),
    (ChoiceBetweenEffects, "between two effects", 2),
    (ChildrenLate, "between two effects", 2),
    (SpentLate, "spent before its last effect", 1),
    (SpentEarly, "ends with the last effect", 1),
    (SpentBeforeEnded, "ends with the last effect", 1),
    (IdleIsWork, "document 01", 2),
];

#[test]
fn each_is_shown() {
    for (fault, name, workers) in SHOWN {
        let job = job_named(name);
        let (given, due) = (
            simulated(Some(fault), &job.job, workers).0,
            job.due(workers),
        );
        println!("{fault:?}: {name}, {workers} workers: {given:?}, due {due:?}");
        assert_ne!(given, due, "{fault:?}: {name}");
        assert_eq!(simulated(None, &job.job, workers).0, due, "{name}");
    }
}

/// The effects of the tick behind the last one are seen in the words alone.
#[test]
fn shown_by_words() {
    let job = job_named("spent within a tick").job;
    let (given, words) = simulated(Some(SpentAfterTheTick), &job, 2);
    let (due, words_due) = simulated(None, &job, 2);
    assert_eq!(given, due);
    assert!(words != words_due);
}

#[test]
fn refusals() {
    let job = job_named("document 01").job;
    let given = |fault, job, workers| simulated(Some(fault), job, workers).0;
    for (fault, bytes, workers, due) in [
        (Workers0, &job[..], 0, 14),
        (Workers17, &job[..], 17, 14),
        (WorkersFirst, &[0; 3][..], 0, 10),
    ] {
        assert_ne!(given(fault, bytes, workers), Simulated::Refused(due));
        assert_eq!(simulated(None, bytes, workers).0, Simulated::Refused(due));
    }
    let long = |fault| {
        let mut lent = [WORDS, RUNNER, WORKING + 1].map(|length| vec![7; length]);
        let slices = lent.each_mut().map(|words| &mut words[..]);
        erring_simulations::simulate(fault, &job, 1, &OURS, slices)
    };
    assert_eq!(long(None), Simulated::Refused(1));
    assert_ne!(long(Some(LongWorking)), Simulated::Refused(1));
}

/// Where the top has finished nothing is under way, so the work may as well be
/// counted when an instruction is taken.
#[test]
fn no_error_at_all() {
    for vector in level_6() {
        for (workers, due) in vector.simulations {
            assert_eq!(simulated(Some(WorkWhenTaken), &vector.job, workers).0, due);
        }
    }
}
