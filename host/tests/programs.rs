//! Random programs on the model and on program order, as the program `fuzz`
//! has them, with the slow comparisons after every call.

use host::call::Call;
use host::check::Pair;
use host::layout::WORDS;
use host::play::Player;
use host::random::Random;

fn play(pair: &mut Pair, seed: u64, most: u32) {
    let mut player = Player::new(Random::new(seed));
    let opening = player.opening();
    pair.make(&opening).expect("opens");
    while player.calls < most && !player.ended() {
        let call = player.next(&pair.order);
        if let Err(what) = pair.make(&call) {
            panic!("program {seed}: {what}");
        }
    }
}

#[test]
fn short_programs_with_every_comparison() {
    let mut pair = Pair::new(vec![3; WORDS], 1);
    for seed in 0..60 {
        play(&mut pair, seed, 120);
    }
}

#[test]
fn long_programs() {
    let mut pair = Pair::new(vec![3; WORDS], 256);
    for seed in 100..140 {
        play(&mut pair, seed, 1_000);
    }
}

/// The deepest and the widest tree, with a push at every task, finished from
/// the youngest on.
#[test]
fn deep_and_wide() {
    for deep in [true, false] {
        let mut pair = Pair::new(vec![0; WORDS], 64);
        let mut make = |call: Call| pair.make(&call).unwrap_or_else(|what| panic!("{what}"));
        make(Call::Open {
            length: 2,
            segments: 256,
        });
        for number in 1..128 {
            let task = if deep { number - 1 } else { 0 };
            make(Call::Spawn {
                task,
                rights: 0b0101_0101,
            });
            make(Call::push(number, number % 4, &[number]));
            make(Call::push(task, number % 4, &[1_000 + number]));
        }
        for task in (0..128).rev() {
            make(Call::Finish { task });
        }
        for queue in 0..4 {
            for index in 0..70 {
                make(Call::Left { queue, index });
            }
        }
    }
}
