//! A request list read against a table, with refusals 10 and 11.

use crate::table::{parse, Table};
use crate::No;

/// One request of a list that has been found legal.
#[derive(Debug, Clone, PartialEq)]
pub(crate) struct Request {
    pub task: usize,
    pub frame: usize,
    pub arrival: u64,
}

/// The number of records of a legal list.
pub fn list(table: &[u8], list: &[u8]) -> Result<usize, No> {
    let table = parse(table)?;
    Ok(parse_list(&table, list)?.len())
}

/// "for a list, length, then records in order, in each record 10 before 11"
pub(crate) fn parse_list(table: &Table, bytes: &[u8]) -> Result<Vec<Request>, No> {
    // 10: "list length not a multiple of 8 or above 1,024 (index 0)"
    let records = bytes.chunks_exact(8);
    if !records.remainder().is_empty() || bytes.len() > 1_024 {
        return Err((10, 0));
    }
    let mut before: Vec<Request> = Vec::new();
    for (index, record) in records.enumerate() {
        let Some(request) = request(table, record) else {
            return Err((10, index));
        };
        if !in_order(&before, &request) {
            return Err((10, index));
        }
        if !follows(table, &before, &request) {
            return Err((11, index));
        }
        before.push(request);
    }
    Ok(before)
}

/// A record by itself, or none for 10: "pad not zero, unknown task or frame, arrival too large".
fn request(table: &Table, record: &[u8]) -> Option<Request> {
    let task = usize::from(record[0]);
    let frame = usize::from(record[1]);
    let arrival = u32::from_le_bytes([record[4], record[5], record[6], record[7]]);
    if record[2] != 0 || record[3] != 0 {
        return None;
    }
    table.tasks.get(task)?.frames.get(frame)?;
    // "arrivals 0 to 65,535"
    if arrival > 65_535 {
        return None;
    }
    Some(Request {
        task,
        frame,
        arrival: u64::from(arrival),
    })
}

/// "sorted by arrival and at equal arrivals by strictly rising task number (one task twice at
/// the same arrival is refusal 10)"
fn in_order(before: &[Request], request: &Request) -> bool {
    match before.last() {
        None => true,
        Some(last) => (last.arrival, last.task) < (request.arrival, request.task),
    }
}

/// 11: "next request has the wrong frame or comes too soon", seen from the task's latest record.
/// A legal list "may start each task at any frame", so its first record follows.
fn follows(table: &Table, before: &[Request], request: &Request) -> bool {
    let same_task = |earlier: &&Request| earlier.task == request.task;
    let Some(earlier) = before.iter().rev().find(same_task) else {
        return true;
    };
    // "A task's next request is its next frame, and comes at least P of the earlier frame after
    // it." "A task's frames come round in order."
    let frames = &table.tasks[request.task].frames;
    let next = (earlier.frame + 1) % frames.len();
    request.frame == next && request.arrival >= earlier.arrival + frames[earlier.frame].p
}
