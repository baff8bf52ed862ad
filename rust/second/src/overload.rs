//! The overload list: the requests of an overload, and their bytes in a lent buffer.

use crate::table::{parse, Table, Task};
use crate::verdict::{judge, Verdict};
use crate::walk::walk;
use crate::No;

/// One request of a list.
struct Request {
    arrival: u64,
    task: usize,
    frame: usize,
}

/// "The overload list is written from a place the caller names; bytes before it and after the
/// list stay." Gives the number of bytes written.
pub fn overload(table: &[u8], buffer: &mut [u8], place: u64) -> Result<usize, No> {
    // "or 13 then 12"
    let bytes = overload_list(table)?;
    // 12: "the place lies past the buffer's end, or the list has more bytes than the buffer
    // has from there". The place is tested first, so that the rest of the buffer is known.
    if place > buffer.len() as u64 {
        return Err((12, 0));
    }
    let rest = &mut buffer[place as usize..];
    if bytes.len() > rest.len() {
        return Err((12, 0));
    }
    rest[..bytes.len()].copy_from_slice(&bytes);
    Ok(bytes.len())
}

/// How many bytes the overload list has, so that a buffer of just that length can be lent. It is asked of an overload
/// list, so a table that isn't overloaded is 13.
pub fn overload_size(table: &[u8]) -> Result<usize, No> {
    Ok(overload_list(table)?.len())
}

/// The overload list as bytes. "The writer has no limit of 128 records; the bench has."
pub fn overload_list(table: &[u8]) -> Result<Vec<u8>, No> {
    let table = parse(table)?;
    // 13: "an overload list asked of a table that isn't overloaded"
    let Verdict::Overloaded { t, starts, .. } = judge(&table) else {
        return Err((13, 0));
    };
    Ok(bytes(&requests(&table, t, &starts)))
}

/// All tasks' requests. "Sorted by arrival, then task number."
fn requests(table: &Table, t: u64, starts: &[u8; 16]) -> Vec<Request> {
    let mut requests = Vec::new();
    for (number, task) in table.tasks.iter().enumerate() {
        requests.extend(task_requests(number, task, usize::from(starts[number]), t));
    }
    requests.sort_by_key(|request| (request.arrival, request.task));
    requests
}

/// "For each task, from its start frame, the earliest arrivals, up to and including the last
/// request whose deadline is at most t; none if there is no such request. A request in between
/// with a later deadline is written too".
fn task_requests(number: usize, task: &Task, start: usize, t: u64) -> Vec<Request> {
    let mut requests = Vec::new();
    let mut kept = 0;
    for arrival in walk(task, start, t) {
        requests.push(Request {
            arrival: arrival.offset,
            task: number,
            frame: arrival.number,
        });
        if arrival.offset + arrival.frame.d <= t {
            kept = requests.len();
        }
    }
    requests.truncate(kept);
    requests
}

/// "A request record is 8 bytes: task, frame, two zero bytes, arrival as 32 bits low byte
/// first."
fn bytes(requests: &[Request]) -> Vec<u8> {
    let mut bytes = Vec::with_capacity(requests.len() * 8);
    for request in requests {
        bytes.extend([request.task as u8, request.frame as u8, 0, 0]);
        bytes.extend((request.arrival as u32).to_le_bytes());
    }
    bytes
}
