//! That the fuzzer can fail on takes: libraries whose takes err, and whose steps of
//! operation 10 do, made from the linked one. Each error is found on memory as it
//! was reached or with few words changed.

use crate::faults::{found, with_core, with_runner};
use crate::fuzzing::Made;
use crate::linked::{self, packed};
use crate::linked_runner;
use crate::pair::Library;
use crate::runner_pair::{RunnerLibrary, LINKED};
use host::answer::{Answer, PAST_THE_END};
use host::call::Call;
use host::job::Job;
use host::layout::*;
use host::operations::TAKE_OR_GO;
use host::pools;
use host::runner::RECORD;

const EMPTY: u64 = 33 << 32;
const NOT_EMPTY: u64 = 34 << 32;

fn made_with(keep: bool, call: &Call, m: &mut [u32]) -> u64 {
    match call.as_take() {
        Some((task, queue, _)) => linked::make(&Call::Take { task, queue, keep }, m),
        None => linked::make(call, m),
    }
}

fn keep_takes(call: &Call, m: &mut [u32]) -> u64 {
    made_with(false, call, m)
}

fn take_keeps(call: &Call, m: &mut [u32]) -> u64 {
    made_with(true, call, m)
}

fn empty_waits(call: &Call, m: &mut [u32]) -> u64 {
    match linked::make(call, m) {
        EMPTY => packed(Answer::Waits),
        other => other,
    }
}

fn empty_gets_7(call: &Call, m: &mut [u32]) -> u64 {
    match linked::make(call, m) {
        EMPTY => packed(PAST_THE_END),
        other => other,
    }
}

/// The answer of a kept take that moved, in place of its value.
fn kept_is(answer: u64, call: &Call, m: &mut [u32]) -> u64 {
    match (linked::make(call, m), call.as_take()) {
        (given, Some((_, _, true))) if given >> 32 == 0 => answer,
        (given, _) => given,
    }
}

fn kept_is_0(call: &Call, m: &mut [u32]) -> u64 {
    kept_is(0, call, m)
}

fn kept_is_not_empty(call: &Call, m: &mut [u32]) -> u64 {
    kept_is(NOT_EMPTY, call, m)
}

/// The value goes, and the segment that has none left stays.
fn frees_nothing(call: &Call, m: &mut [u32]) -> u64 {
    let before = m.to_vec();
    let answer = linked::make(call, m);
    let Some((task, queue, _)) = call.as_take().filter(|_| answer >> 32 == 0) else {
        return answer;
    };
    if get(m, FREE_SEGMENTS) > get(&before, FREE_SEGMENTS) {
        m.copy_from_slice(&before);
        pools::drop_first(m, get(&before, queue_head(task, queue)));
    }
    answer
}

#[test]
fn takes() {
    let libraries: [(&str, Library); 7] = [
        ("keep that takes", keep_takes),
        ("a take that keeps", take_keeps),
        ("empty that waits", empty_waits),
        ("7 for an empty take", empty_gets_7),
        ("a kept take that answers 0", kept_is_0),
        ("a kept take that answers not empty", kept_is_not_empty),
        ("a take that frees nothing", frees_nothing),
    ];
    for (name, library) in libraries {
        let failure = found(|| with_core(library));
        let take = matches!(failure.call, Made::Core(Call::Take { .. }));
        assert!(take, "{name}: {failure}");
    }
}

type Step = fn(&[u8], &mut [u32], &mut [u32], u32) -> u64;

/// The step of the library. Where it was one of operation 10 on an empty queue,
/// `change` is then made to the runner's words of the task; it is told the
/// instruction at which the task stood.
fn changed(
    job: &[u8],
    m: &mut [u32],
    runner: &mut [u32],
    t: u32,
    change: fn(&mut [u32], u32),
) -> u64 {
    let before = runner.to_vec();
    let answer = linked_runner::step(job, m, runner, t);
    if answer == EMPTY {
        let [procedure, instruction] = [0, 1].map(|word| before[RECORD * t as usize + word]);
        let whole = Job::read(job).expect("a job");
        let body = &whole.procedures()[procedure as usize].body;
        if body[instruction as usize].operation == TAKE_OR_GO {
            change(&mut runner[RECORD * t as usize..][..RECORD], instruction);
        }
    }
    answer
}

fn register_on_empty(job: &[u8], m: &mut [u32], runner: &mut [u32], t: u32) -> u64 {
    changed(job, m, runner, t, |words, _| words[2] = 0)
}

fn next_on_empty(job: &[u8], m: &mut [u32], runner: &mut [u32], t: u32) -> u64 {
    changed(job, m, runner, t, |words, at| words[1] = at + 1)
}

#[test]
fn steps_of_operation_10() {
    let steps: [(&str, Step); 2] = [
        ("the register changed on empty", register_on_empty),
        ("the next instruction on empty", next_on_empty),
    ];
    for (name, step) in steps {
        let library = RunnerLibrary { step, ..LINKED };
        let failure = found(|| with_runner(library));
        assert!(matches!(failure.call, Made::Step(_)), "{name}: {failure}");
        assert!(failure.what.contains("of the runner"), "{name}: {failure}");
    }
}
