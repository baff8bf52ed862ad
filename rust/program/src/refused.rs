//! A refusal for people: what stands at the record that it points at.
use crate::input::MOST;
use crate::output::count;
use crate::records::{self, Record, Request, RECORD_SIZE, REQUEST_SIZE};
use desk::{refusals, Index, Refusal, MOST_REQUESTS};

/// What stands there, and where an example is.
pub fn found(no: Refusal, table: &[u8], list: &[u8]) -> String {
    let what = match refusals::of(no.number).map(|meaning| meaning.index) {
        Some(Index::InList) => in_list(no, list),
        Some(Index::InTable | Index::FirstInTable) => in_table(no, table),
        Some(Index::Zero) | None => length("table", table),
    };
    format!("{what} 'limpidorsa explain {}' has an example.", no.number)
}

fn in_table(no: Refusal, table: &[u8]) -> String {
    let records = records::of_table(table);
    let Some(record) = records.get(no.index) else {
        return length("table", table);
    };
    // What the record is held against. All before it are good, so the one before has its task's kind and P.
    let beside = match no.number {
        2 => no.index.checked_sub(1),
        3 | 6 if record.frame > 0 => Some(no.index - 1),
        _ => None,
    };
    let here = Whole {
        whose: "table",
        bytes: table,
        size: RECORD_SIZE,
    };
    here.at_record(no.index, beside, |i| table_record(&records[i]))
}

fn in_list(no: Refusal, list: &[u8]) -> String {
    let requests = records::of_list(list);
    // The length is tested before any record.
    let wrong_length = !list.len().is_multiple_of(REQUEST_SIZE) || requests.len() > MOST_REQUESTS;
    match requests.get(no.index) {
        Some(request) if !wrong_length => {
            let beside = match no.number {
                10 => no.index.checked_sub(1),
                _ => requests[..no.index].iter().rposition(|r| r.task == request.task),
            };
            let here = Whole {
                whose: "list",
                bytes: list,
                size: REQUEST_SIZE,
            };
            here.at_record(no.index, beside, |i| list_record(&requests[i]))
        }
        _ => length("list", list),
    }
}

// A longer file is not read to its end.
fn length(whose: &str, bytes: &[u8]) -> String {
    let many = count(bytes.len() as u64, "byte");
    let or_more = if bytes.len() as u64 >= MOST {
        " or more"
    } else {
        ""
    };
    format!("The {whose} has {many}{or_more}.")
}

// A table or a list, and the bytes of one of its records.
struct Whole<'a> {
    whose: &'a str,
    bytes: &'a [u8],
    size: usize,
}

impl Whole<'_> {
    // The record's bytes and what they say, and what the record beside which it is wrong says.
    fn at_record(&self, index: usize, beside: Option<usize>, say: impl Fn(usize) -> String) -> String {
        let whose = self.whose;
        let from = index * self.size;
        let bytes = self.bytes[from..from + self.size].iter();
        let digits = bytes.map(|b| format!("{b:02x}")).collect::<Vec<_>>().join(" ");
        let before = beside.map_or(String::new(), |i| format!(" Before it, record {i}: {}.", say(i)));
        format!(
            "Record {index} of the {whose} (counted from 0) begins at byte {from} and is {digits}: {}.{before}",
            say(index)
        )
    }
}

fn table_record(r: &Record) -> String {
    format!(
        "task {}, kind {}, E {}, D {}, P {}",
        r.task, r.kind, r.e, r.d, r.p
    )
}

fn list_record(r: &Request) -> String {
    format!("task {}, frame {}, arrival {}", r.task, r.frame, r.arrival)
}
