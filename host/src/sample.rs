//! Random calls and memories.

use crate::call::Call;
use crate::layout::*;
use crate::order::Order;
use crate::play::Player;
use crate::random::Random;

/// Numbers at which something ends.
const EDGES: [u32; 26] = [
    0,
    1,
    2,
    3,
    4,
    5,
    8,
    16,
    31,
    32,
    63,
    64,
    65,
    127,
    128,
    129,
    255,
    256,
    257,
    8_192,
    16_384,
    65_536,
    1 << 30,
    1 << 31,
    NL,
    NONE,
];

/// Any word, often an edge or a small number.
pub fn any_word(r: &mut Random) -> u32 {
    match r.below(4) {
        0 => r.pick(&EDGES),
        1 => r.below(5),
        2 => r.below(260),
        _ => r.word(),
    }
}

/// The most values of a random run.
const MOST_RUN: u32 = 300;

fn run_of(r: &mut Random, number: u32) -> Vec<u32> {
    (0..number).map(|_| r.word()).collect()
}

/// Any run, mostly a short one.
pub fn any_run(r: &mut Random) -> Vec<u32> {
    let most = r.pick(&[0, 1, 1, 1, 1, 3, 10, 40, MOST_RUN]);
    let number = r.within(most.min(1), most);
    run_of(r, number)
}

/// Often a run that the free segments hold, or nearly hold, if these are few.
fn likely_run(r: &mut Random, m: &[u32]) -> Vec<u32> {
    let length = length(m);
    let least = get(m, FREE_SEGMENTS).saturating_mul(length);
    let most = least.saturating_add(length).saturating_add(1);
    if most > MOST_RUN || r.chance(60) {
        return any_run(r);
    }
    let number = r.within(least, most);
    run_of(r, number)
}

/// Kinds of calls, for `call_of` and `likely_call`; a kept take is one of them.
pub const CALL_KINDS: u32 = 8;

/// A call with any arguments.
pub fn hostile_call(r: &mut Random) -> Call {
    let (kind, a, b) = (r.below(CALL_KINDS), any_word(r), any_word(r));
    call_of(r, kind, a, b)
}

/// The call of this kind with these arguments; a push of any run.
pub fn call_of(r: &mut Random, kind: u32, a: u32, b: u32) -> Call {
    match kind {
        0 => Call::Open {
            length: a,
            segments: b,
        },
        1 => Call::Spawn { task: a, rights: b },
        2 => Call::push(a, b, &any_run(r)),
        3 | 4 => Call::Take {
            task: a,
            queue: b,
            keep: kind == 4,
        },
        5 => Call::Sync { task: a },
        6 => Call::Finish { task: a },
        _ => Call::Left { queue: a, index: b },
    }
}

/// A call of this kind that may well move on this memory, if it passes.
pub fn likely_call(r: &mut Random, m: &[u32], kind: u32) -> Call {
    let task = likely_task(r, m, kind);
    let queue = if r.chance(2) { 4 } else { r.below(QUEUES) };
    let (a, b) = match kind {
        0 => (r.within(1, 8), r.within(4, 100)),
        1 if r.chance(90) && task < TASKS => (task, rights(m, task) & r.word()),
        1 => (task, r.word()),
        2 => return Call::push(task, queue, &likely_run(r, m)),
        7 => (queue, r.below(12)),
        _ => (task, queue),
    };
    call_of(r, kind, a, b)
}

/// An unfinished task; for sync and finish mostly one without children.
fn likely_task(r: &mut Random, m: &[u32], kind: u32) -> u32 {
    let ends = kind >= 5 && r.chance(80);
    let fits = |t: &u32| status(m, *t) == UNFINISHED && (!ends || youngest(m, *t) == NONE);
    let tasks: Vec<u32> = (0..TASKS).filter(fits).collect();
    if tasks.is_empty() || r.chance(3) {
        return r.below(TASKS + 2);
    }
    r.pick(&tasks)
}

/// Memory after some calls of a random program, made on the model.
pub fn reached(r: &mut Random) -> Vec<u32> {
    let mut m = vec![0; WORDS];
    let mut order = Order::new();
    let mut player = Player::new(Random::new(u64::from(r.word())));
    player.opening().make(&mut m);
    let calls = r.pick(&[0, 3, 20, 80, 200]);
    while player.calls < calls && !player.ended() {
        let call = player.next(&order);
        let answer = call.make(&mut m);
        if answer.moved() {
            order.note(&call, answer);
        }
    }
    m
}

/// Words without any order; small ones come closer to passing.
pub fn noise(r: &mut Random, number: u32) -> Vec<u32> {
    let limit = r.pick(&[2, 4, 128, 300, u32::MAX]);
    (0..number).map(|_| r.below(limit)).collect()
}
