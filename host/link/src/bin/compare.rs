//! The linked core against the model, answer for answer and word for word.
//!
//! `compare SEED` runs all parts. `compare SEED PART ROUND` makes one round of
//! one part again, as the line of a difference names it.

use host::call::Call;
use host::damage::{damage, plain_damage};
use host::layout::*;
use host::order::Order;
use host::play::Player;
use host::random::Random;
use host::sample::*;
use host::{broken, foreign};
use link::pair::Pair;
use link::rounds::{asked, random_of, status, usage, Asked};
use link::scenes;
use std::process::ExitCode;

type Outcome = Result<(), String>;

struct Part {
    name: &'static str,
    /// At least so many calls are made.
    calls: u64,
    /// And at least so many rounds.
    rounds: u32,
    /// Makes the round of this number.
    round: fn(&mut Pair, &mut Random, u32) -> Outcome,
}

const PARTS: [Part; 8] = [
    // From fresh openings.
    part("openings", 1, 67, openings),
    part("programs", 250_000, 1, programs),
    part("scenes", 60_000, 10, big_programs),
    // On memory that calls alone do not reach.
    part("hand-made", 1, 200, hand_made),
    part("damaged", 100_000, 1, damaged),
    part("origin", 60_000, 1, of_other_origin),
    part("each-word", 1, 16, each_word),
    part("noise", 10_000, 1, noisy),
];

const fn part(
    name: &'static str,
    calls: u64,
    rounds: u32,
    round: fn(&mut Pair, &mut Random, u32) -> Outcome,
) -> Part {
    Part {
        name,
        calls,
        rounds,
        round,
    }
}

/// Every number of segments with one length, in range or not, and some calls
/// after each.
fn openings(pair: &mut Pair, r: &mut Random, length: u32) -> Outcome {
    pair.set(&noise(r, WORDS as u32));
    for segments in 0..=258 {
        if !pair.make(&Call::Open { length, segments })?.moved() {
            continue;
        }
        for _ in 0..8 {
            let kind = r.pick(&[1, 2, 2, 2, 3, 4, 6]);
            let call = likely_call(r, &pair.model, kind);
            pair.make(&call)?;
        }
    }
    Ok(())
}

/// One random program over words of any kind, with hostile calls in between.
fn programs(pair: &mut Pair, r: &mut Random, _: u32) -> Outcome {
    pair.set(&noise(r, WORDS as u32));
    let mut player = Player::new(Random::new(u64::from(r.word())));
    pair.make(&player.opening())?;
    play(pair, r, Order::new(), &mut player, 5_000)
}

/// Makes the player's calls and hostile ones.
fn play(
    pair: &mut Pair,
    r: &mut Random,
    mut order: Order,
    player: &mut Player,
    most: u32,
) -> Outcome {
    while !player.ended() && player.calls < most {
        let call = if r.chance(5) {
            hostile_call(r)
        } else {
            player.next(&order)
        };
        let answer = pair.make(&call)?;
        if answer.moved() {
            order.note(&call, answer);
        }
    }
    Ok(())
}

/// A random program that begins with a known or a random large memory.
fn big_programs(pair: &mut Pair, r: &mut Random, round: u32) -> Outcome {
    let list = scenes::all();
    let mut calls = match list.get(round as usize) {
        Some(scene) => [&scene.start[..], &scene.again].concat(),
        None => tall_or_broad(r),
    };
    for _ in 0..r.pick(&[0, 30, 600]) {
        let (task, queue) = (r.below(128), r.below(4));
        calls.push(call_of(r, 2, task, queue));
    }
    pair.set(&noise(r, WORDS as u32));
    let mut order = Order::new();
    for call in calls {
        let answer = pair.make(&call)?;
        if answer.moved() {
            order.note(&call, answer);
        }
    }
    let mut player = Player::new(Random::new(u64::from(r.word())));
    play(pair, r, order, &mut player, 800)
}

/// An opening, and spawns until no record is free: a child of the last one or
/// of the top, with rights that fall away slowly or not at all.
fn tall_or_broad(r: &mut Random) -> Vec<Call> {
    let length = r.within(1, 64);
    let segments = r.within(4, (VALUE_WORDS / length).min(MOST_SEGMENTS));
    let (down, fall) = (r.pick(&[0, 10, 90, 100]), r.pick(&[0, 2, 20]));
    let mut calls = vec![Call::Open { length, segments }];
    let mut given = ALL_RIGHTS;
    for last in 0..130 {
        let deeper = r.chance(down);
        if r.chance(fall) {
            given &= r.word() | r.word();
        }
        let task = if deeper { last } else { 0 };
        let mask = if r.chance(50) { given } else { given & 0x55 };
        calls.push(Call::Spawn { task, rights: mask });
    }
    calls
}

/// A hand-made memory: every call with every likely argument, likely calls in a
/// row, and damage.
fn hand_made(pair: &mut Pair, r: &mut Random, round: u32) -> Outcome {
    let list = broken::with_passing();
    let (name, m) = &list[round as usize % list.len()];
    every_call(pair, r, m).map_err(|what| format!("{name}: {what}"))?;
    for _ in 0..6 {
        pair.set(m);
        for _ in 0..12 {
            let kind = r.within(1, 7);
            let call = likely_call(r, &pair.model, kind);
            pair.make(&call).map_err(|what| format!("{name}: {what}"))?;
        }
    }
    damaged_copies(pair, r, m, 4)
}

/// Each call on a copy of its own.
fn every_call(pair: &mut Pair, r: &mut Random, m: &[u32]) -> Outcome {
    for kind in 1..CALL_KINDS {
        for a in [0, 1, 2, 3, 4, 127, 128, NONE] {
            for b in [0, 1, 2, 3, 4, 255, NONE] {
                pair.set(m);
                pair.make(&call_of(r, kind, a, b))?;
            }
        }
    }
    Ok(())
}

fn damaged(pair: &mut Pair, r: &mut Random, _: u32) -> Outcome {
    let m = reached(r);
    damaged_copies(pair, r, &m, 20)
}

/// Copies with one to four words changed, and on each one a call of each kind,
/// the opening last.
fn damaged_copies(pair: &mut Pair, r: &mut Random, m: &[u32], times: u32) -> Outcome {
    for _ in 0..times {
        let mut copy = m.to_vec();
        if r.chance(60) {
            damage(r, &mut copy);
        } else {
            plain_damage(r, &mut copy);
        }
        pair.set(&copy);
        a_call_of_each_kind(pair, r)?;
    }
    Ok(())
}

fn a_call_of_each_kind(pair: &mut Pair, r: &mut Random) -> Outcome {
    let mut kinds = [1, 2, 3, 4, 5, 6, 7];
    r.shuffle(&mut kinds);
    for kind in kinds {
        let call = likely_call(r, &pair.model, kind);
        pair.make(&call)?;
    }
    if r.chance(10) {
        pair.make(&likely_call(r, &[], 0))?;
    }
    pair.make(&hostile_call(r)).map(|_| ())
}

/// Random memory that passes, whole and damaged.
fn of_other_origin(pair: &mut Pair, r: &mut Random, _: u32) -> Outcome {
    let m = foreign::memory(r);
    for _ in 0..4 {
        pair.set(&m);
        a_call_of_each_kind(pair, r)?;
    }
    damaged_copies(pair, r, &m, 6)
}

/// Every word of a reached memory changed, one at a time.
fn each_word(pair: &mut Pair, r: &mut Random, round: u32) -> Outcome {
    let m = reached(r);
    let from = round as usize * 1_024;
    for address in from..from + 1_024 {
        let near = get(&m, address) ^ 1 << r.below(9);
        let any = r.word();
        let word = r.pick(&[near, near, NONE, NL, 0, any]);
        let mut copy = m.clone();
        put(&mut copy, address, word);
        pair.set(&copy);
        let kind = r.within(1, 7);
        pair.make(&likely_call(r, &copy, kind))?;
    }
    Ok(())
}

/// Random words, as many as should be or not.
fn noisy(pair: &mut Pair, r: &mut Random, _: u32) -> Outcome {
    let most = WORDS as u32;
    let any = r.below(40_000);
    let number = r.pick(&[
        most,
        most,
        any,
        0,
        1,
        3,
        64,
        500,
        most - 1,
        most + 1,
        2 * most,
    ]);
    pair.set(&noise(r, number));
    for kind in 0..CALL_KINDS {
        pair.make(&likely_call(r, &[], kind))?;
        pair.make(&hostile_call(r))?;
    }
    Ok(())
}

fn make_round(pair: &mut Pair, seed: u64, at: usize, round: u32) -> Outcome {
    let before = pair.counts.calls;
    let outcome = (PARTS[at].round)(pair, &mut random_of(seed, at, round), round);
    outcome.map_err(|what| {
        let call = pair.counts.calls - before + 1;
        let name = PARTS[at].name;
        format!("seed {seed}, part {name}, round {round}, call {call}: {what}")
    })
}

fn run_all(pair: &mut Pair, seed: u64) -> Outcome {
    for (at, part) in PARTS.iter().enumerate() {
        let before = pair.counts.calls;
        let mut round = 0;
        while round < part.rounds || pair.counts.calls - before < part.calls {
            make_round(pair, seed, at, round)?;
            round += 1;
        }
        let calls = pair.counts.calls - before;
        println!("{}: {calls} calls in {round} rounds", part.name);
    }
    match pair.counts.missing() {
        Some(case) => Err(format!("seed {seed}: no call got {case}")),
        None => Ok(()),
    }
}

fn main() -> ExitCode {
    let words: Vec<String> = std::env::args().skip(1).collect();
    let Some((seed, wanted)) = asked(&words, &PARTS.map(|part| part.name)) else {
        return usage("compare");
    };
    println!("seed {seed}");
    let mut pair = Pair::default();
    let outcome = match wanted {
        Asked::All => run_all(&mut pair, seed),
        Asked::One(at, round) => make_round(&mut pair, seed, at, round),
    };
    if outcome.is_ok() {
        println!("{}", pair.counts);
        println!("{} calls, agree", pair.counts.calls);
    }
    status(outcome)
}
