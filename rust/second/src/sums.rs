//! The sums of all tasks' demands, or works, for every number up to a horizon at once.
//!
//! The walk of one start puts each E into a bucket at the number from which it counts; the
//! running sum over the buckets is then the sum of that start at each number.

use crate::table::{Table, Task};
use crate::walk::{walk, Arrival};

/// The horizons at which a search looks, one after the other; the last is the document's own.
/// A search that ends early has looked at every number before its answer.
pub const STAGES: [u64; 3] = [64, 1_024, 65_536];

/// From which t an arrival counts in demand: "offset plus D is at most t".
fn counts_in_demand(arrival: &Arrival) -> u64 {
    arrival.offset + arrival.frame.d
}

/// From which w an arrival counts in work: "offset is below w".
fn counts_in_work(arrival: &Arrival) -> u64 {
    arrival.offset + 1
}

/// The sum of all tasks' demands at each t from 0 to the horizon.
pub fn demands(table: &Table, horizon: u64) -> Vec<u64> {
    sums(table, horizon, counts_in_demand)
}

/// The sum of all tasks' works at each w from 0 to the horizon.
pub fn works(table: &Table, horizon: u64) -> Vec<u64> {
    sums(table, horizon, counts_in_work)
}

fn sums(table: &Table, horizon: u64, counts: fn(&Arrival) -> u64) -> Vec<u64> {
    let places = horizon as usize + 1;
    let mut total = vec![0; places];
    let mut greatest = vec![0; places];
    let mut bucket = vec![0; places];
    for task in &table.tasks {
        greatest.fill(0);
        // "greatest over all s"
        for start in 0..task.frames.len() {
            fill(&mut bucket, task, start, counts);
            raise(&mut greatest, &mut bucket);
        }
        for (sum, value) in total.iter_mut().zip(&greatest) {
            *sum += value;
        }
    }
    total
}

/// Puts each E of one start's walk into its bucket; what counts only past the horizon has none.
/// No arrival counts at its own offset or before, so the walk may end at the last bucket.
fn fill(bucket: &mut [u64], task: &Task, start: usize, counts: fn(&Arrival) -> u64) {
    let horizon = bucket.len() as u64 - 1;
    for arrival in walk(task, start, horizon) {
        let from = counts(&arrival);
        if from <= horizon {
            bucket[from as usize] += arrival.frame.e;
        }
    }
}

/// Takes the running sum over the buckets into the greatest so far, and leaves them empty.
fn raise(greatest: &mut [u64], bucket: &mut [u64]) {
    let mut sum = 0;
    for (value, amount) in greatest.iter_mut().zip(bucket.iter_mut()) {
        sum += *amount;
        *amount = 0;
        *value = sum.max(*value);
    }
}
