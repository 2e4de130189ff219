//! Errors shown by random programs: a core that errs in one place has to differ
//! from program order.

use crate::call::Call;
use crate::check::{Pair, Program};
use crate::layout::WORDS;
use crate::play::Player;
use crate::random::Random;

/// What differs in the first run, of so many, in which something does.
fn difference(program: Program, most: u64) -> Option<String> {
    let mut pair = Pair::new(vec![3; WORDS], 1);
    pair.program = program;
    (0..most).find_map(|seed| {
        let mut player = Player::new(Random::new(seed));
        let mut tried = pair.make(&player.opening());
        while tried.is_ok() && !player.ended() && player.calls < 600 {
            let call = player.next(&pair.order);
            tried = pair.make(&call);
        }
        tried.err()
    })
}

/// Each of these differs, and first in a call that is shown so; the model does
/// not.
pub fn each(broken: &[(&str, Program)], call: &str) {
    assert_eq!(difference(Call::make, 100), None);
    for (name, program) in broken {
        let what = difference(*program, 400).unwrap_or_else(|| panic!("not shown: {name}"));
        println!("{name}: {what}");
        assert!(what.starts_with(call), "{name}: {what}");
    }
}
