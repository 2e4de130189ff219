//! Random tables of ticks, none of them 0.

use crate::random::Random;
use crate::simulate::Table;

/// The most ticks of an operation that document 02 lets a buyer's table have.
pub const MOST_TICKS: u32 = 1_000;

/// Few ticks, any, all the same, or one operation that takes far longer.
pub fn random_table(r: &mut Random) -> Table {
    let mut table = Table::default();
    let most = r.pick(&[1, 2, 9, 9, MOST_TICKS]);
    for ticks in &mut table {
        *ticks = r.within(1, most);
    }
    if r.chance(25) {
        let at = r.below(table.len() as u32) as usize;
        table[at] = MOST_TICKS;
    }
    table
}
