//! Random jobs that pass the test. Most are tame: their loops count down or
//! empty a queue and they mostly spawn later procedures, so that most of them
//! end. Some are wild: any instructions that the test allows, in any order.

use crate::job::{write, Procedure};
use crate::operations::ALL_RIGHTS;
use crate::random::Random;
use crate::random_bodies::{tame, wild};

/// The bytes of a random job.
pub fn accepted(r: &mut Random) -> Vec<u8> {
    let number = match r.below(20) {
        0 => r.within(1, 64),
        1 => 1,
        _ => r.within(2, 6),
    };
    let mut rights = vec![ALL_RIGHTS];
    for _ in 1..number {
        let of_spawner = r.pick(&rights);
        rights.push(of_spawner & some_rights(r));
    }
    let body = if r.chance(15) { wild } else { tame };
    let mut procedures = Vec::new();
    for (own, rights_of_own) in rights.iter().enumerate() {
        procedures.push(Procedure {
            rights: *rights_of_own,
            body: body(r, &rights, own),
        });
    }
    write(r.within(1, 64) as u16, &procedures)
}

/// All rights, most, half of them, or none.
fn some_rights(r: &mut Random) -> u8 {
    match r.below(20) {
        0..=9 => ALL_RIGHTS,
        10..=15 => (r.word() | r.word()) as u8,
        16..=18 => r.word() as u8,
        _ => 0,
    }
}
