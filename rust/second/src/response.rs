//! The fixed-priority response of a frame, by its recurrence.

use crate::table::{parse, Frame, Table, Task};
use crate::walk::walk;
use crate::No;

#[derive(Debug, Clone, PartialEq)]
pub enum Response {
    OnTime { value: u64, rounds: u64 },
    Late { value: u64, round: u64 },
}

/// The response of a frame of a task. "or 9 then 8"
pub fn response(table: &[u8], task: u64, frame: u64) -> Result<Response, No> {
    let table = parse(table)?;
    let asked = table.task(task)?.frame(frame)?;
    deadlines_within_periods(&table)?;
    // "Priority is table order, task 0 highest."
    let higher = &table.tasks[..task as usize];
    Ok(end(asked, &values(asked, higher)))
}

/// 8: "response asked and some frame of the table has D above its P", carrying the "first such
/// record".
fn deadlines_within_periods(table: &Table) -> Result<(), No> {
    let frames = table.tasks.iter().flat_map(|task| &task.frames);
    for (index, frame) in frames.enumerate() {
        if frame.d > frame.p {
            return Err((8, index));
        }
    }
    Ok(())
}

/// The values of the recurrence, "numbered from 0", up to the first that repeats (written
/// once) or passes D.
pub(crate) fn values(frame: &Frame, higher: &[Task]) -> Vec<u64> {
    let sums = higher_sums(higher, frame.d);
    // "The first value is the frame's E."
    let mut value = frame.e;
    let mut values = vec![value];
    while value <= frame.d {
        // "Each next value is E plus, for each higher task, the sum of E of frames with offset
        // below the previous value"
        let next = frame.e + sums[value as usize];
        if next == value {
            break;
        }
        values.push(next);
        value = next;
    }
    values
}

/// "If a value repeats and is at most D: on time, with the value and the number of rounds, which
/// is the first index of the repeated value. If a value passes D first: late, with that value
/// and its index."
fn end(frame: &Frame, values: &[u64]) -> Response {
    let index = values.len() - 1;
    let value = values[index];
    if value <= frame.d {
        Response::OnTime {
            value,
            rounds: index as u64,
        }
    } else {
        Response::Late {
            value,
            round: index as u64,
        }
    }
}

/// For each value from 0 to the last, the sum over the higher tasks of "E of frames with offset
/// below" it, "that task starting at its peak frame [..] and arriving as early as allowed".
fn higher_sums(higher: &[Task], last: u64) -> Vec<u64> {
    let mut sums = vec![0; last as usize + 1];
    for task in higher {
        for arrival in walk(task, peak(task), last) {
            // An offset is below a value from the offset plus 1 on.
            sums[arrival.offset as usize + 1] += arrival.frame.e;
        }
    }
    let mut sum = 0;
    for value in &mut sums {
        sum += *value;
        *value = sum;
    }
    sums
}

/// "its peak frame (greatest E, lowest number if equal)"
fn peak(task: &Task) -> usize {
    let mut peak = 0;
    for (number, frame) in task.frames.iter().enumerate() {
        if frame.e > task.frames[peak].e {
            peak = number;
        }
    }
    peak
}
