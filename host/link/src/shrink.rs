//! A ground on which a call differs, brought back word by word to the one it
//! was made from; and a run of values brought to fewer.

use crate::fuzzing::Made;
use crate::ground::Ground;
use host::call::Call;
use host::names;

/// A word that stays changed.
#[derive(Clone, Debug, PartialEq, Eq)]
pub struct Change {
    /// The core's memory, or the runner's.
    pub of_core: bool,
    pub address: usize,
    pub was: u32,
    pub is: u32,
}

impl Change {
    fn place<'a>(&self, ground: &'a mut Ground) -> &'a mut u32 {
        let memory = if self.of_core {
            &mut ground.core
        } else {
            &mut ground.runner
        };
        &mut memory[self.address]
    }
}

impl std::fmt::Display for Change {
    fn fmt(&self, f: &mut std::fmt::Formatter) -> std::fmt::Result {
        let Change {
            address, was, is, ..
        } = self;
        let (memory, name) = if self.of_core {
            ("core", names::core_word(*address))
        } else {
            ("runner", names::runner_word(*address))
        };
        write!(f, "{memory} word {address} ({name}): {is}, was {was}")
    }
}

/// The words in which two grounds differ, as far as both have them.
pub fn changes(from: &Ground, to: &Ground) -> Vec<Change> {
    let of = |of_core: bool, from: &[u32], to: &[u32]| -> Vec<Change> {
        let words = from.iter().zip(to).enumerate();
        words
            .filter(|(_, (was, is))| was != is)
            .map(|(address, (was, is))| Change {
                of_core,
                address,
                was: *was,
                is: *is,
            })
            .collect()
    };
    let core = of(true, &from.core, &to.core);
    [core, of(false, &from.runner, &to.runner)].concat()
}

/// Takes back changes as long as the rest still differs: none of those left can
/// be done without.
pub fn shrunk(from: &Ground, to: &Ground, mut differs: impl FnMut(&Ground) -> bool) -> Ground {
    let mut ground = to.clone();
    loop {
        let before = changes(from, &ground);
        for change in &before {
            *change.place(&mut ground) = change.was;
            if !differs(&ground) {
                *change.place(&mut ground) = change.is;
            }
        }
        if changes(from, &ground).len() == before.len() {
            return ground;
        }
    }
}

/// Takes values off the end of a run, then off its beginning, as long as the push
/// still differs.
pub fn shortened(call: Made, mut differs: impl FnMut(&Made) -> bool) -> Made {
    let Made::Core(push) = &call else {
        return call;
    };
    let Some((task, queue, values)) = push.as_push() else {
        return call;
    };
    let of = |values: &[u32]| Made::Core(Call::push(task, queue, values));
    let mut least = values;
    while let Some((_, fewer)) = least.split_last().filter(|(_, fewer)| differs(&of(fewer))) {
        least = fewer;
    }
    while let Some((_, fewer)) = least.split_first().filter(|(_, fewer)| differs(&of(fewer))) {
        least = fewer;
    }
    of(least)
}
