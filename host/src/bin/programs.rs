//! Random programs on the model and on program order, compared call by call.
//!
//! `programs SEED CALLS` makes at least so many calls; `stats` as a third word adds
//! how often each answer came.

use host::call::Call;
use host::check::Pair;
use host::layout::WORDS;
use host::play::Player;
use host::random::Random;
use std::collections::BTreeMap;
use std::process::ExitCode;

/// How often each kind of call got each number, and how large things grew.
#[derive(Default)]
struct Stats {
    answers: BTreeMap<(&'static str, u32), u64>,
    most_tasks: usize,
    most_items: usize,
    programs: u64,
    tops_finished: u64,
}

fn kind(call: &Call) -> &'static str {
    match call {
        Call::Open { .. } => "open",
        Call::Spawn { .. } => "spawn",
        Call::Push { values, .. } => match values.len() {
            0 => "push of none",
            1 => "push",
            _ => "push of several",
        },
        Call::Take { keep: false, .. } => "take",
        Call::Take { keep: true, .. } => "kept take",
        Call::Sync { .. } => "sync",
        Call::Finish { .. } => "finish",
        Call::Left { .. } => "left",
    }
}

fn make(pair: &mut Pair, call: &Call, stats: &mut Stats) -> Result<(), String> {
    let answer = pair.make(call)?;
    *stats
        .answers
        .entry((kind(call), answer.number()))
        .or_default() += 1;
    Ok(())
}

/// One program; the number of its calls.
fn program(pair: &mut Pair, seed: u64, stats: &mut Stats) -> Result<u64, String> {
    let mut player = Player::new(Random::new(seed));
    make(pair, &player.opening(), stats)?;
    while !player.ended() {
        let call = player.next(&pair.order);
        make(pair, &call, stats)?;
        stats.most_tasks = stats.most_tasks.max(pair.order.spots().count());
    }
    stats.most_items = stats.most_items.max(pair.order.size());
    stats.programs += 1;
    stats.tops_finished += u64::from(pair.order.top_finished());
    Ok(u64::from(player.calls) + 1)
}

fn run(count: u64, seed: u64, stats: &mut Stats) -> Result<u64, String> {
    let mut random = Random::new(seed);
    let words = (0..WORDS).map(|_| random.word()).collect();
    let mut pair = Pair::new(words, 128);
    let mut made = 0;
    while made < count {
        let program_seed = u64::from(random.word()) << 32 | u64::from(random.word());
        made += program(&mut pair, program_seed, stats)
            .map_err(|what| format!("program {program_seed}: {what}"))?;
    }
    Ok(made)
}

fn show(stats: &Stats) {
    for ((call, number), times) in &stats.answers {
        println!("{call} {number}: {times}");
    }
    println!(
        "{} programs, {} tops finished, {} tasks at most, {} items at most",
        stats.programs, stats.tops_finished, stats.most_tasks, stats.most_items
    );
}

/// The numbers of `SEED CALLS`, and whether the counts are wanted.
fn asked(words: &[&str]) -> Option<(u64, u64, bool)> {
    let number = |word: &str| word.parse().ok();
    match words {
        [seed, calls] => Some((number(seed)?, number(calls)?, false)),
        [seed, calls, "stats"] => Some((number(seed)?, number(calls)?, true)),
        _ => None,
    }
}

fn main() -> ExitCode {
    let words: Vec<String> = std::env::args().skip(1).collect();
    let words: Vec<&str> = words.iter().map(String::as_str).collect();
    let Some((seed, calls, counts)) = asked(&words) else {
        eprintln!("programs SEED CALLS [stats]");
        return ExitCode::from(2);
    };
    let mut stats = Stats::default();
    let outcome = run(calls, seed, &mut stats);
    if counts {
        show(&stats);
    }
    match outcome {
        Ok(made) => println!("{made} calls, agree"),
        Err(what) => {
            println!("differs: {what}");
            return ExitCode::FAILURE;
        }
    }
    ExitCode::SUCCESS
}
