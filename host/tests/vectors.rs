//! The model against models that were written apart from it.

use host::core_vectors::core_4;
use host::job::Job;
use host::layout::WORDS;
use host::memory::{Calls, Core};
use host::overlap_text;
use host::replay::{replay, replay_by_text};
use host::runner::RUNNER;
use host::serial::{self, End};
use host::simulate::{simulate, OURS, WORKING};
use host::vectors::level_6;

#[test]
fn all_are_there() {
    let vectors = level_6();
    let replays: usize = vectors.iter().map(|vector| vector.replays.len()).sum();
    let simulations: usize = vectors.iter().map(|v| v.simulations.len()).sum();
    assert_eq!((vectors.len(), replays, simulations), (120, 580, 690));
    let cores = core_4();
    let calls: usize = cores.iter().map(|core| core.len() - 1).sum();
    assert_eq!((cores.len(), calls), (60, 7_200));
}

#[test]
fn job_tests_and_prints() {
    for vector in level_6() {
        let test = Job::read(&vector.job).map_or_else(|refusal| refusal.number(), |_| 0);
        assert_eq!(test, vector.test);
        assert_eq!(
            overlap_text::text(&vector.job, &vector.tasks),
            vector.printed
        );
    }
}

#[test]
fn runs_without_overlap() {
    for vector in level_6() {
        let Some((end, steps)) = vector.serial else {
            continue;
        };
        let run = serial::run(&Job::read(&vector.job).expect("a job"));
        let due = match end.as_str() {
            "ended" => End::Ended,
            number => End::Refused(number.parse().expect("8 or 9")),
        };
        assert_eq!((run.end, run.events.len()), (due, steps));
        assert_eq!(run.queues.to_vec(), vector.queues);
    }
}

#[test]
fn replays() {
    for vector in level_6() {
        for (trace, due) in vector.replays {
            let trace = trace.as_bytes();
            let given = replay(&vector.job, trace, &mut [7; WORDS], &mut [7; RUNNER]);
            assert_eq!(given, due);
            assert_eq!(replay_by_text(&vector.job, trace), due);
        }
    }
}

#[test]
fn simulations() {
    for vector in level_6() {
        for (workers, due) in vector.simulations {
            let (mut m, mut r, mut working) = ([7; WORDS], [7; RUNNER], vec![7; WORKING]);
            let given = simulate(&vector.job, workers, &OURS, &mut m, &mut r, &mut working);
            assert_eq!(given, due, "{workers} workers");
        }
    }
}

#[test]
fn calls_of_the_core() {
    for calls in core_4() {
        let mut core = Core(vec![7; WORDS]);
        for (call, due) in calls {
            let answer = core.make(&call);
            assert_eq!((answer.number(), answer.value()), due, "{call}");
        }
    }
}
