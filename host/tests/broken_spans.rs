//! That the small jobs can show an error of the span: ones that err in one place, each
//! beside the small job whose span is another then; and that random jobs show each.

use host::erring_spans::{self, Fault};
use host::job::Job;
use host::random::Random;
use host::random_stages::staged;
use host::simulate::OURS;
use host::span::{ceiling, Run};
use host::{span_jobs, timed_jobs};
use Fault::*;

/// Each with a small job and the span that it gives there.
const SHOWN: [(Fault, &str, u64); 28] = [
    (PreviousLeftOut, "one after another", 2),
    (SpawnLeftOut, "a late spawn", 17),
    (PushLeftOut, "a value pushed late", 22),
    (PushLeftOut, "a value pushed late, tested", 22),
    (PushOfTakesOnly, "a value pushed late, tested", 22),
    (LastPush, "the first of two values", 40),
    (SiblingsLeftOut, "siblings that share a right to pop", 24),
    (AnySibling, "siblings that share no right to pop", 31),
    (SiblingsThatPush, "siblings that share no right to pop", 31),
    (ChildrenLeftOut, "a child", 17),
    (ChildrenOfReturnsOnly, "a sync", 19),
    (PoppingChildrenLeftOut, "a child that may pop", 25),
    (AnyChildOfTakes, "a child that may not pop", 35),
    (PushersLeftOut, "a pusher that pushes nothing", 29),
    (PushersLeftOut, "a pusher before the push", 29),
    (PushersOfFoundOnly, "a pusher that pushes nothing", 29),
    (PushersOfEmptyOnly, "a pusher before the push", 29),
    (PusherOfTheValue, "the pusher of the value goes on", 57),
    (PushersUpToTheInstruction, "a pusher behind the push", 55),
    (
        PushersUpToTheInstruction,
        "the pusher of the value goes on",
        57,
    ),
    (PushersThatPush, "a pusher that pushes nothing", 29),
    (PushersOfAnyQueue, "a pusher to another queue", 52),
    (PushersNearby, "a pusher further away", 29),
    (PopsOnly, "a pusher that pushes nothing, tested", 29),
    (PopsOnly, "a pusher that pushes nothing, taken or gone", 29),
    (LastNotCounted, "a return", 0),
    (LastNotCounted, "document 01", 21),
    (InstructionsCounted, "document 01", 7),
];

fn run_of(job: &[u8]) -> Run {
    let job = Job::read(job).expect("a job");
    Run::of(&job, 2_000).expect("it ends")
}

#[test]
fn each_is_shown() {
    let all: Vec<_> = span_jobs::all()
        .into_iter()
        .chain(timed_jobs::all())
        .collect();
    for (fault, name, given) in SHOWN {
        let job = all
            .iter()
            .find(|job| job.name == name)
            .expect("a small job");
        let (run, due) = (run_of(&job.job), job.due(1).out()[2]);
        assert_ne!(given, due, "{fault:?}: {name}");
        assert_eq!(
            erring_spans::span(Some(fault), &run, &OURS),
            given,
            "{fault:?}: {name}"
        );
        assert_eq!(erring_spans::span(None, &run, &OURS), due, "{name}");
    }
}

/// Random jobs of stages, which are compared with the library too, show each of them;
/// with no fault both ways to the span agree.
#[test]
fn random_jobs_show_each() {
    let mut faults: Vec<Fault> = SHOWN.iter().map(|(fault, ..)| *fault).collect();
    faults.dedup();
    let mut shown = vec![0; faults.len()];
    for seed in 0..2_000 {
        let job = staged(&mut Random::new(seed));
        let Some(run) = Run::of(&Job::read(&job).expect("a job"), 300) else {
            continue;
        };
        let due = run.span(&OURS);
        assert_eq!(erring_spans::span(None, &run, &OURS), due, "seed {seed}");
        for (fault, times) in faults.iter().zip(&mut shown) {
            *times += u32::from(erring_spans::span(Some(*fault), &run, &OURS) != due);
        }
    }
    for (fault, times) in faults.iter().zip(shown) {
        println!("{fault:?}: {times}");
        assert!(times > 0, "{fault:?}");
    }
}

/// The ceiling of document 01's job, beside one with W in place of W - 1, one without
/// the span, and one that is rounded up.
#[test]
fn ceilings() {
    let (work, span) = (33, 23);
    for (w, due, with_w, without, up) in [
        (1, 33, 56, 33, 33),
        (2, 28, 39, 16, 28),
        (3, 26, 34, 11, 27),
        (16, 23, 25, 2, 24),
    ] {
        assert_eq!(ceiling(w as u32, work, span), due);
        assert_eq!((work + w * span) / w, with_w);
        assert_eq!(work / w, without);
        assert_eq!((work + (w - 1) * span).div_ceil(w), up);
    }
}
