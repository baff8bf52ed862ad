//! What shows an overload, for people: the list that the desk writes, and what becomes of it.
use crate::output::{count, ticks};
use crate::records::{self, Record, Request};
use desk::{grouped, Ending, MOST_REQUESTS};

/// The list that shows an overload at t.
pub fn evidence(t: u64, table: &[u8], records: &[Record]) -> String {
    match desk::overload_list(table) {
        Ok(list) => shown_by(&list, t, table, records),
        Err(no) => format!("Its list was refused: {}.", no.when()),
    }
}

// The first requests of the list, and what becomes of it.
fn shown_by(list: &[u8], t: u64, table: &[u8], records: &[Record]) -> String {
    const FIRST: usize = 4;
    let requests = records::of_list(list);
    let first: Vec<String> = requests.iter().take(FIRST).map(|r| request(r, records)).collect();
    let more = match requests.len().saturating_sub(FIRST) {
        0 => String::new(),
        many => format!("; and {} more", grouped(many as u64)),
    };
    format!(
        "A legal list of {} shows it: {}{more}. {}",
        count(requests.len() as u64, "request"),
        first.join("; "),
        replayed(&requests, t, list, table)
    )
}

fn request(r: &Request, records: &[Record]) -> String {
    let needs = records::asked_by(r, records).map_or(String::new(), |record| {
        let due = u64::from(r.arrival) + u64::from(record.d);
        format!(" and needs {} by {}", ticks(record.e.into()), grouped(due))
    });
    let (task, frame, arrival) = (r.task, r.frame, grouped(r.arrival));
    format!("task {task} frame {frame} arrives at {arrival}{needs}")
}

// Too much of the list is due by t, so a longer list is known to miss by then, replayed or not.
fn replayed(requests: &[Request], t: u64, list: &[u8], table: &[u8]) -> String {
    if requests.len() > MOST_REQUESTS {
        return format!(
            "That is longer than the bench takes, {MOST_REQUESTS} records, so it is not replayed here; but under any \
             schedule one of its requests that are due by tick {} misses its deadline.",
            grouped(t)
        );
    }
    match desk::replay(table, list) {
        Ok(Ending::Missed { tick, record }) => {
            let (Request { task, frame, .. }, tick) = (&requests[record], grouped(tick));
            format!(
                "Replayed under earliest deadline first, task {task} frame {frame} (record {record}) misses its \
                 deadline at tick {tick}."
            )
        }
        Ok(Ending::AllMet { tick }) => format!("Replayed, all were met at tick {}.", grouped(tick)),
        Err(no) => format!("Its replay was refused: {}.", no.when()),
    }
}
