//! Damaged memory and random words: no call fails, a call that does not move
//! changes nothing, and the two forms of the rules agree.

use host::answer::Answer;
use host::call::Call;
use host::damage::damage;
use host::layout::{get, segments, FREE_SEGMENTS, WORDS};
use host::random::Random;
use host::sample::*;
use host::{fast, foreign, rules};

/// A call of each kind that may well move, and one with any arguments.
fn some_calls(r: &mut Random, m: &[u32]) -> Vec<Call> {
    let mut calls: Vec<Call> = (0..CALL_KINDS)
        .map(|kind| likely_call(r, m, kind))
        .collect();
    calls.push(hostile_call(r));
    calls
}

/// Makes each call on a copy of `m`.
fn try_calls(r: &mut Random, m: &[u32]) {
    let passes = fast::hold(m);
    for call in some_calls(r, m) {
        let mut copy = m.to_vec();
        let answer = call.make(&mut copy);
        if !answer.moved() {
            assert!(copy == m, "{call} is {answer:?} and changes words");
        }
        let opening = matches!(call, Call::Open { .. });
        if m.len() == WORDS && !passes && !opening {
            assert_eq!(answer, Answer::Refused(2), "{call}");
        }
        if answer.moved() {
            assert!(rules::held_named_once(&copy), "{call}");
            assert!(rules::ends_named_by_tails(&copy), "{call}");
            assert!(rules::no_empty_with_next(&copy), "{call}");
        }
    }
}

/// The count of held segments that is made first is the one by the words of the
/// rules, and they and the free ones are those opened.
fn assert_held(m: &[u32]) {
    let held = fast::held(m);
    assert_eq!(held, rules::held(m));
    if let Some(held) = held {
        assert_eq!(held + get(m, FREE_SEGMENTS), segments(m));
    }
}

/// Damages memories and makes calls; how many passed all the same.
fn damaged(seed: u64, times: u32, source: fn(&mut Random) -> Vec<u32>) -> u32 {
    let mut r = Random::new(seed);
    let mut passing = 0;
    for _ in 0..times {
        let good = source(&mut r);
        assert_eq!(rules::first_broken(&good), None);
        for _ in 0..20 {
            let mut m = good.clone();
            damage(&mut r, &mut m);
            assert_held(&m);
            passing += u32::from(m != good && fast::hold(&m));
            try_calls(&mut r, &m);
        }
    }
    passing
}

#[test]
fn reached_memories() {
    let passing = damaged(1, 400, reached);
    println!("{passing} damaged memories pass");
    assert!(passing > 400);
}

#[test]
fn memories_of_other_origin() {
    let passing = damaged(2, 300, foreign::memory);
    println!("{passing} damaged memories pass");
    assert!(passing > 200);
}

/// Each rule is total: it ends on damaged and on random words.
#[test]
fn rules_one_by_one() {
    let mut r = Random::new(3);
    for _ in 0..200 {
        let mut m = reached(&mut r);
        for _ in 0..3 {
            damage(&mut r, &mut m);
        }
        for words in [m, noise(&mut r, WORDS as u32)] {
            let broken = rules::RULES.iter().any(|(_, rule)| !rule(&words));
            assert_eq!(broken, !fast::hold(&words));
        }
    }
}

#[test]
fn random_words_of_any_number() {
    let mut r = Random::new(4);
    for _ in 0..300 {
        let number = r.pick(&[0, 1, 4, 64, 500, 8_192, WORDS as u32 - 1, WORDS as u32 + 9]);
        let m = noise(&mut r, number);
        for call in some_calls(&mut r, &m) {
            assert_eq!(call.make(&mut m.clone()), Answer::Refused(1));
        }
        let whole = noise(&mut r, WORDS as u32);
        try_calls(&mut r, &whole);
    }
}
