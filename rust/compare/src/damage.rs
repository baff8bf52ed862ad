//! A good table damaged, so that every refusal of a table shows.
use crate::faults::FAULTS;
use crate::record::{records_of, table_of};
use crate::rng::Rng;
use crate::tables;
use desk::MOST_TABLE_BYTES;

fn good(rng: &mut Rng) -> Vec<u8> {
    let kinds = [
        tables::near_full_load,
        tables::wide,
        tables::multiframe,
        tables::at_the_limits,
    ];
    rng.pick(&kinds)(rng)
}

fn damaged(rng: &mut Rng, faults: usize) -> Vec<u8> {
    let mut all = records_of(&good(rng));
    for _ in 0..faults {
        let i = rng.below(all.len() as u64) as usize;
        rng.pick(&FAULTS)(rng, &mut all, i);
    }
    table_of(&all)
}

pub fn one_fault(rng: &mut Rng) -> Vec<u8> {
    damaged(rng, 1)
}

pub fn two_faults(rng: &mut Rng) -> Vec<u8> {
    damaged(rng, 2)
}

/// Refusal 1: nothing, bytes too few or too many for whole records, more than 64 records; faults in them or
/// not.
pub fn wrong_length(rng: &mut Rng) -> Vec<u8> {
    let faults = rng.pick(&[0, 0, 1]);
    let mut table = damaged(rng, faults);
    match rng.below(4) {
        0 => table.clear(),
        1 => table.truncate(table.len() - rng.between(1, 7) as usize),
        2 => table.extend(rng.bytes(3)),
        _ => {
            let one = table.clone();
            let n = MOST_TABLE_BYTES + rng.pick(&[1, 8, 16, 512]);
            table.extend(one.iter().cycle().take(n));
        }
    }
    table
}
