//! Tests: the linked library against the answers of models that were written
//! apart from it and from the model here.

use crate::linked_jobs::{queues, ANSWERS, WORKING};
use crate::linked_replay::packed;
use crate::proved_run::printed;
use crate::simulation_pair::SimulationPair;
use crate::{linked, linked_jobs, linked_replay};
use host::core_vectors::core_4;
use host::layout::WORDS;
use host::runner::RUNNER;
use host::simulate;
use host::vectors::level_6;

#[test]
fn job_tests_and_prints() {
    for vector in level_6() {
        let test = linked_jobs::job_test(&vector.job);
        assert_eq!(test, u64::from(vector.test) << 32);
        let printed = match printed(&vector.job, &vector.tasks) {
            Ok(printed) => printed.text,
            Err(number) => format!("job refused {number}\n"),
        };
        assert_eq!(printed, vector.printed);
    }
}

#[test]
fn runs_without_overlap() {
    let (mut working, mut answers) = (vec![7; WORKING], vec![7; ANSWERS]);
    for vector in level_6() {
        let Some((end, steps)) = vector.serial else {
            continue;
        };
        let given = linked_jobs::run_serially(&vector.job, &mut working, &mut answers);
        let stopped = match end.as_str() {
            "ended" => 0,
            number => number.parse().expect("8 or 9"),
        };
        assert_eq!(given, stopped << 32 | steps as u64);
        assert_eq!(queues(&working).to_vec(), vector.queues);
    }
}

#[test]
fn replays() {
    for vector in level_6() {
        for (trace, due) in &vector.replays {
            let (mut core, mut runner) = ([7; WORDS], [7; RUNNER]);
            let trace = trace.as_bytes();
            let given = linked_replay::replay(&vector.job, trace, &mut core, &mut runner);
            assert_eq!(given, packed(*due));
        }
    }
}

#[test]
fn simulations() {
    let mut pair =
        SimulationPair::new([WORDS, RUNNER, simulate::WORKING].map(|length| vec![7; length]));
    for vector in level_6() {
        for (workers, due) in vector.simulations {
            assert_eq!(pair.simulate(&vector.job, workers), Ok(due));
        }
    }
}

#[test]
fn calls_of_the_core() {
    for calls in core_4() {
        let mut words = vec![7; WORDS];
        for (call, (status, value)) in calls {
            let given = linked::make_guarded(&call, &mut words);
            let due = u64::from(status) << 32 | u64::from(value);
            assert_eq!(given, due, "{call}");
        }
    }
}
