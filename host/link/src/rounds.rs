//! Programs of rounds that can be made again.

use host::random::Random;
use std::process::ExitCode;

/// The numbers of a round depend on nothing but the seed, its part and itself.
pub fn random_of(seed: u64, part: usize, round: u32) -> Random {
    let mixed = seed.wrapping_mul(0x1_0000_01B3) ^ (part as u64) << 56 ^ u64::from(round) << 24;
    Random::new(mixed)
}

/// What such a program is asked for.
pub enum Asked {
    /// All rounds of all parts.
    All,
    /// One round of one part.
    One(usize, u32),
}

/// `SEED`, or `SEED PART ROUND`; `names` are those of the parts.
pub fn asked(words: &[String], names: &[&str]) -> Option<(u64, Asked)> {
    let seed = words.first()?.parse().ok()?;
    match words {
        [_] => Some((seed, Asked::All)),
        [_, name, round] => {
            let part = names.iter().position(|part| part == name)?;
            Some((seed, Asked::One(part, round.parse().ok()?)))
        }
        _ => None,
    }
}

/// The exit status of a comparison, after a line that says what differs.
pub fn status(outcome: Result<(), String>) -> ExitCode {
    match outcome {
        Ok(()) => ExitCode::SUCCESS,
        Err(what) => {
            println!("differs: {what}");
            ExitCode::FAILURE
        }
    }
}

/// The exit status of a call that asks for nothing, after a line that says how
/// to call.
pub fn usage(name: &str) -> ExitCode {
    eprintln!("{name} SEED [PART ROUND]");
    ExitCode::FAILURE
}
