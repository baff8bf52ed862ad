//! The closing window and the earliest-deadline verdict.

use crate::demand::{demand_from, task_demand};
use crate::sums::{demands, works, STAGES};
use crate::table::{parse, Table};
use crate::No;

#[derive(Debug, Clone, PartialEq)]
pub enum Verdict {
    Overloaded { t: u64, margin: i64, starts: [u8; 16] },
    Fits { window: u64, margin: i64, at: u64 },
    Undecided,
}

/// The closing window, if there is one; answered for overloaded tables too.
pub fn window(table: &[u8]) -> Result<Option<u64>, No> {
    Ok(closing_window(&parse(table)?))
}

/// The earliest-deadline verdict.
pub fn verdict(table: &[u8]) -> Result<Verdict, No> {
    Ok(judge(&parse(table)?))
}

/// "The closing window is the least w from 1 to 65,536 with the sum of all tasks' work in w at
/// most w, if there is one."
fn closing_window(table: &Table) -> Option<u64> {
    for horizon in STAGES {
        let works = works(table, horizon);
        for w in 1..=horizon {
            if works[w as usize] <= w {
                return Some(w);
            }
        }
    }
    None
}

pub(crate) fn judge(table: &Table) -> Verdict {
    // "If some t from 1 to 65,536 has a margin below zero: overloaded, with the least such t,
    // its margin, and sixteen start frames". The last stage has looked at all of them.
    let mut sums = Vec::new();
    for horizon in STAGES {
        sums = demands(table, horizon);
        for t in 1..=horizon {
            let margin = margin_at(&sums, t);
            if margin < 0 {
                let starts = starts(table, t);
                return Verdict::Overloaded { t, margin, starts };
            }
        }
    }
    // "Otherwise, if a closing window exists: fits"; "Otherwise: undecided."
    match closing_window(table) {
        Some(window) => {
            let (margin, at) = least_margin(&sums, window);
            Verdict::Fits { window, margin, at }
        }
        None => Verdict::Undecided,
    }
}

/// "t minus the sum of all tasks' demands, a signed number"
fn margin_at(sums: &[u64], t: u64) -> i64 {
    t as i64 - sums[t as usize] as i64
}

/// "the least margin over t from 1 to the window, and the first t having it"
fn least_margin(sums: &[u64], window: u64) -> (i64, u64) {
    let mut least = (margin_at(sums, 1), 1);
    for t in 1..=window {
        let margin = margin_at(sums, t);
        if margin < least.0 {
            least = (margin, t);
        }
    }
    least
}

/// "sixteen start frames, one per task, each the lowest frame number that gives that task's
/// demand at t (0 past the last task)"
fn starts(table: &Table, t: u64) -> [u8; 16] {
    let mut starts = [0; 16];
    for (number, task) in table.tasks.iter().enumerate() {
        let demand = task_demand(task, t);
        for start in (0..task.frames.len()).rev() {
            // From the last frame down, so the lowest that gives the demand is set last.
            if demand_from(task, start, t) == demand {
                starts[number] = start as u8;
            }
        }
    }
    starts
}
