//! A verdict in plain words: a paragraph, and a line for where there are many.
use crate::evidence::evidence;
use crate::output::{count, ticks};
use crate::records::{self, Record};
use crate::refused;
use desk::{grouped, Refusal, Verdict, HORIZON};

/// A table and the verdict on it.
pub struct Judged {
    table: Vec<u8>,
    pub verdict: Result<Verdict, Refusal>,
}

impl Judged {
    pub fn of(table: Vec<u8>) -> Judged {
        Judged {
            verdict: desk::verdict(&table),
            table,
        }
    }
}

/// The verdict on one line.
pub fn line(j: &Judged) -> String {
    match j.verdict {
        Err(no) => no.to_string(),
        Ok(Verdict::Overloaded { t, margin, .. }) => {
            let too_much = ticks(margin.unsigned_abs());
            format!("overloaded at t = {} by {too_much}", grouped(t))
        }
        Ok(Verdict::Fits { window, margin, t }) => {
            let (window, t) = (grouped(window), grouped(t));
            format!("fits, window {window}, least margin {margin} at t = {t}")
        }
        Ok(Verdict::Undecided) => format!("undecided up to {}", ticks(HORIZON)),
    }
}

/// The verdict as a paragraph, not yet broken into lines.
pub fn paragraph(j: &Judged) -> String {
    let records = records::of_table(&j.table);
    let size = size(&records);
    match j.verdict {
        Err(no) => format!("{no}. {}", refused::found(no, &j.table, &[])),
        Ok(Verdict::Overloaded { t, margin, .. }) => {
            let (claim, evidence) = (overloaded(t, margin), evidence(t, &j.table, &records));
            format!("overloaded ({size}). {claim} {evidence}")
        }
        Ok(Verdict::Fits { window, margin, t }) => format!("fits ({size}). {}", fits(window, margin, t)),
        Ok(Verdict::Undecided) => format!("undecided ({size}). {}", undecided()),
    }
}

fn size(records: &[Record]) -> String {
    let tasks = records.last().map_or(0, |r| u64::from(r.task) + 1);
    format!(
        "{}, {}",
        count(tasks, "task"),
        count(records.len() as u64, "record")
    )
}

// How much work can be due within t ticks: the demand of all tasks.
fn due(t: u64, margin: i64) -> u64 {
    t.saturating_add_signed(-margin)
}

fn overloaded(t: u64, margin: i64) -> String {
    format!(
        "Requests that arrive and are due within {} can need {}: {} more than there is. No schedule whatever holds \
         every deadline.",
        ticks(t),
        ticks(due(t, margin)),
        ticks(margin.unsigned_abs())
    )
}

fn fits(window: u64, margin: i64, t: u64) -> String {
    let within = match due(t, margin) {
        0 => format!("no request can both arrive and be due within {}", ticks(t)),
        due => {
            let due = ticks(due);
            format!(
                "requests that arrive and are due within {} need at most {due}",
                ticks(t)
            )
        }
    };
    format!(
        "Every deadline is held in every legal request list, of any length, under earliest deadline first. The \
         closing window is {w}: all tasks together bring at most {w} of work into it. The least margin up to there \
         is {margin}, first at t = {}: {within}.",
        grouped(t),
        w = ticks(window),
    )
}

fn undecided() -> String {
    format!(
        "The desk looks at up to {}, and promises neither way here: in no interval up to there can more work arrive \
         and fall due than it has ticks, but in every window up to there more work can arrive than it has ticks. The \
         load may be full, above that, or close to it; or much work can come in a burst and is due late. Make an E \
         less or a P greater, and judge again.",
        ticks(HORIZON)
    )
}
