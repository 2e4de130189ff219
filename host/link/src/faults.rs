//! That the fuzzer can fail: libraries that err on some damaged memories, made
//! from the linked one, whose errors have to be found and brought to one word.

use crate::fuzzing::{Failure, Fuzzer, Made};
use crate::ground::Ground;
use crate::linked_runner::Map;
use crate::pair::Library;
use crate::rounds::random_of;
use crate::runner_pair::RunnerLibrary;
use crate::shrink::{changes, shrunk};
use crate::{linked, linked_runner, runner_pair};
use host::call::Call;
use host::layout::*;
use host::random::Random;
use host::rules;

const SEED: u64 = 5;

/// The top lacks a right, which it does in no memory that passes.
fn strange(m: &[u32]) -> bool {
    m.len() == WORDS && rights(m, 0) != ALL_RIGHTS
}

fn flip(m: &mut [u32], address: usize) {
    let word = get(m, address);
    put(m, address, word ^ 1);
}

fn other_word(call: &Call, m: &mut [u32]) -> u64 {
    let errs = strange(m) && matches!(call, Call::Take { .. });
    let answer = linked::make(call, m);
    if errs {
        flip(m, VALUES + 5);
    }
    answer
}

fn other_answer(call: &Call, m: &mut [u32]) -> u64 {
    let errs = strange(m) && matches!(call, Call::Sync { .. });
    linked::make(call, m) ^ u64::from(errs)
}

/// A segment stands on the stack of free ones twice.
fn twice_free(m: &[u32]) -> bool {
    let mut free = rules::free_segments(m);
    let height = free.len();
    free.sort_unstable();
    free.dedup();
    m.len() == WORDS && free.len() < height
}

fn wrong_stack_taken(call: &Call, m: &mut [u32]) -> u64 {
    if twice_free(m) && matches!(call, Call::Sync { .. }) {
        return 0;
    }
    linked::make(call, m)
}

fn other_runner_word(job: &[u8], m: &mut [u32], runner: &mut [u32], t: u32) -> u64 {
    let errs = strange(m);
    let answer = linked_runner::step(job, m, runner, t);
    if errs {
        flip(runner, 7);
    }
    answer
}

fn other_map(job: &[u8], m: &[u32], runner: &[u32], map: &mut Map) -> u64 {
    let answer = linked_runner::ready(job, m, runner, map);
    map[1] ^= u32::from(strange(m));
    answer
}

/// The first failure, which a fresh fuzzer finds again in that round alone.
pub(crate) fn found(fuzzer: impl Fn() -> Fuzzer) -> Failure {
    let mut first = fuzzer();
    for round in 0..2_000 {
        if let Err(failure) = first.round(&mut random_of(SEED, 0, round)) {
            let again = fuzzer().round(&mut random_of(SEED, 0, round));
            assert_eq!(again.as_ref(), Err(&failure));
            return *failure;
        }
    }
    panic!("no call differs");
}

/// One word is left: the rights of the top.
fn brought_to_one_word(failure: &Failure) {
    let [change] = &failure.changes[..] else {
        panic!("{failure}");
    };
    assert!(
        change.of_core && change.address == task(0) + RIGHTS,
        "{failure}"
    );
    let text = failure.to_string();
    assert!(text.contains("core word 1473 (task 0, rights): "), "{text}");
}

pub(crate) fn with_core(library: Library) -> Fuzzer {
    let mut fuzzer = Fuzzer::default();
    fuzzer.core.library = library;
    fuzzer
}

pub(crate) fn with_runner(library: RunnerLibrary) -> Fuzzer {
    let mut fuzzer = Fuzzer::default();
    fuzzer.runner.library = library;
    fuzzer
}

#[test]
fn a_word_of_the_core() {
    let failure = found(|| with_core(other_word));
    brought_to_one_word(&failure);
    assert!(matches!(failure.call, Made::Core(Call::Take { .. })));
    assert!(failure.what.contains("word 8197: "), "{failure}");
}

#[test]
fn an_answer() {
    let failure = found(|| with_core(other_answer));
    brought_to_one_word(&failure);
    assert!(matches!(failure.call, Made::Core(Call::Sync { .. })));
}

/// One word is left: an entry of the stack, or its height.
#[test]
fn a_stack_with_a_number_twice() {
    let failure = found(|| with_core(wrong_stack_taken));
    let [change] = &failure.changes[..] else {
        panic!("{failure}");
    };
    let stack = SEGMENT_STACK..SEGMENT_STACK + MOST_SEGMENTS as usize;
    let of_stack = stack.contains(&change.address) || change.address == FREE_SEGMENTS;
    assert!(change.of_core && of_stack, "{failure}");
    assert!(matches!(failure.call, Made::Core(Call::Sync { .. })));
}

#[test]
fn a_word_of_the_runner() {
    let failure = found(|| {
        with_runner(RunnerLibrary {
            step: other_runner_word,
            ..runner_pair::LINKED
        })
    });
    brought_to_one_word(&failure);
    assert!(matches!(failure.call, Made::Step(_)));
    assert!(failure.what.contains("word 7 of the runner"), "{failure}");
}

#[test]
fn a_map() {
    let failure = found(|| {
        with_runner(RunnerLibrary {
            ready: other_map,
            ..runner_pair::LINKED
        })
    });
    brought_to_one_word(&failure);
    assert_eq!(failure.call, Made::Ready);
}

/// Many changes of both memories, of which only two together are to blame.
#[test]
fn two_words_of_many() {
    let r = &mut Random::new(SEED);
    let from = Ground::reached(r);
    let mut to = from.clone();
    for address in (0..WORDS).step_by(200) {
        to.core[address] ^= 1;
    }
    to.runner.fill(77);
    let differs = |g: &Ground| g.core[400] != from.core[400] && g.runner[8] == 77;
    let left = changes(&from, &shrunk(&from, &to, differs));
    let places: Vec<_> = left.iter().map(|c| (c.of_core, c.address)).collect();
    assert_eq!(places, [(true, 400), (false, 8)]);
}
