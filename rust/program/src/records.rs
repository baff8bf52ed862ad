//! The records of a table and of a list, taken apart for what people read. The desk reads the bytes by itself.
use desk::{MOST_LIST_BYTES, MOST_RECORDS, MOST_REQUESTS, MOST_TABLE_BYTES};

/// The bytes of a table's record, and of a request's: the desk counts each in its own.
pub const RECORD_SIZE: usize = MOST_TABLE_BYTES / MOST_RECORDS;
pub const REQUEST_SIZE: usize = MOST_LIST_BYTES / MOST_REQUESTS;

/// A record of a table.
#[derive(Debug, PartialEq, Eq)]
pub struct Record {
    pub task: u8,
    pub kind: u8,
    pub e: u16,
    pub d: u16,
    pub p: u16,
    /// The frame's number in its run of records with one task number.
    pub frame: usize,
}

/// A record of a request list.
#[derive(Debug, PartialEq, Eq)]
pub struct Request {
    pub task: u8,
    pub frame: u8,
    pub arrival: u32,
}

/// The whole records of a table's bytes, in order.
pub fn of_table(table: &[u8]) -> Vec<Record> {
    let mut records: Vec<Record> = Vec::new();
    for b in table.chunks_exact(RECORD_SIZE) {
        let frame = match records.last() {
            Some(before) if before.task == b[0] => before.frame + 1,
            _ => 0,
        };
        let [e, d, p] = [2, 4, 6].map(|at| u16::from_le_bytes([b[at], b[at + 1]]));
        records.push(Record {
            task: b[0],
            kind: b[1],
            e,
            d,
            p,
            frame,
        });
    }
    records
}

/// The whole records of a list's bytes, in order.
pub fn of_list(list: &[u8]) -> Vec<Request> {
    let request = |b: &[u8]| Request {
        task: b[0],
        frame: b[1],
        arrival: u32::from_le_bytes([b[4], b[5], b[6], b[7]]),
    };
    list.chunks_exact(REQUEST_SIZE).map(request).collect()
}

/// The record of a table that a request asks for.
pub fn asked_by<'a>(request: &Request, table: &'a [Record]) -> Option<&'a Record> {
    table
        .iter()
        .find(|r| r.task == request.task && r.frame == usize::from(request.frame))
}

#[cfg(test)]
mod tests {
    use super::*;

    #[test]
    fn a_table_and_a_list_taken_apart() {
        let table = of_table(&[
            0, 3, 1, 2, 3, 4, 5, 6, 0, 3, 7, 0, 8, 0, 9, 0, 1, 1, 1, 0, 1, 0, 1, 0, 99,
        ]);
        assert_eq!(table.len(), 3);
        assert_eq!(
            table[0],
            Record {
                task: 0,
                kind: 3,
                e: 0x201,
                d: 0x403,
                p: 0x605,
                frame: 0
            }
        );
        assert_eq!((table[1].frame, table[2].frame, table[2].task), (1, 0, 1));
        let list = of_list(&[0, 1, 0, 0, 1, 2, 3, 0]);
        assert_eq!(
            list,
            [Request {
                task: 0,
                frame: 1,
                arrival: 0x30201
            }]
        );
        assert_eq!(asked_by(&list[0], &table), Some(&table[1]));
    }
}
