//! Single questions about demand, work and margin, each by a direct walk.

use crate::table::{parse, Task};
use crate::walk::walk;
use crate::No;

/// The greatest t or window that may be asked about.
pub(crate) const LAST: u64 = 65_536;

/// "for one task's demand or work, 9 before 7"
pub fn demand(table: &[u8], task: u64, t: u64) -> Result<u64, No> {
    let table = parse(table)?;
    let task = table.task(task)?;
    within(t)?;
    Ok(task_demand(task, t))
}

/// "for one task's demand or work, 9 before 7"
pub fn work(table: &[u8], task: u64, w: u64) -> Result<u64, No> {
    let table = parse(table)?;
    let task = table.task(task)?;
    within(w)?;
    Ok(task_work(task, w))
}

/// "Margin at t is t minus the sum of all tasks' demands, a signed number. t is 0 to 65,536;
/// the margin at 0 is 0."
pub fn margin(table: &[u8], t: u64) -> Result<i64, No> {
    let table = parse(table)?;
    within(t)?;
    let sum: u64 = table.tasks.iter().map(|task| task_demand(task, t)).sum();
    Ok(t as i64 - sum as i64)
}

/// 7: "t or a window asked about above 65,536"
fn within(asked: u64) -> Result<(), No> {
    if asked > LAST {
        return Err((7, 0));
    }
    Ok(())
}

/// "The demand is the greatest such sum over all s".
pub(crate) fn task_demand(task: &Task, t: u64) -> u64 {
    let mut greatest = 0;
    for start in 0..task.frames.len() {
        greatest = greatest.max(demand_from(task, start, t));
    }
    greatest
}

/// "Add E of every frame whose offset plus D is at most t." "Every frame that fits counts, also
/// one after a frame that doesn't": so the walk goes on to t, past which no offset plus D fits.
pub(crate) fn demand_from(task: &Task, start: usize, t: u64) -> u64 {
    let mut sum = 0;
    for arrival in walk(task, start, t) {
        if arrival.offset + arrival.frame.d <= t {
            sum += arrival.frame.e;
        }
    }
    sum
}

/// "As demand, but add E of frames whose offset is below w; greatest over all s."
pub(crate) fn task_work(task: &Task, w: u64) -> u64 {
    let mut greatest = 0;
    for start in 0..task.frames.len() {
        let sum = walk(task, start, w).map(|arrival| arrival.frame.e).sum();
        greatest = greatest.max(sum);
    }
    greatest
}
