//! Each question asked of the desk, and its answer as a line.
use crate::lines::{self, unless_refused, Line};
use crate::questions::Question;
use crate::{records, trace};
use desk::{Refusal, Response};
use std::fmt::Display;

/// The answer line of a question.
pub fn answer(question: &Question) -> Line {
    match question {
        Question::Read(table) => unless_refused(desk::read(table), lines::shape),
        Question::Verdict(table) => unless_refused(desk::verdict(table), lines::verdict),
        Question::Window(table) => unless_refused(desk::window(table), lines::window),
        Question::Demand(table, task, t) => said("demand", desk::demand(table, *task, *t)),
        Question::Work(table, task, w) => said("work", desk::work(table, *task, *w)),
        Question::Margin(table, t) => said("margin", desk::margin(table, *t)),
        Question::Response(table, task, frame) => {
            unless_refused(desk::response(table, *task, *frame), lines::response)
        }
        Question::Responses(table) => unless_refused(every_response(table), lines::responses),
        Question::OverloadSize(table) => said("size", desk::overload_size(table)),
        Question::Overload(table, length, place) => overload(table, *length as usize, *place as usize),
        Question::OverloadList(table) => said("list", desk::overload_list(table).map(|l| lines::hex(&l))),
        Question::List(table, list) => unless_refused(desk::list(table, list), |many| {
            Line::fine(format!("legal records={many}"))
        }),
        Question::Replay(table, list) => unless_refused(desk::replay(table, list), lines::ending),
        Question::Trace(table, list) => unless_refused(trace::trace(table, list), lines::trace),
    }
}

// What was answered, after what it is.
fn said(what: &str, answer: Result<impl Display, Refusal>) -> Line {
    unless_refused(answer, |n| Line::fine(format!("{what} {n}")))
}

// The response of every frame, in table order.
fn every_response(table: &[u8]) -> Result<Vec<(u64, u64, Response)>, Refusal> {
    desk::read(table)?;
    let frames = records::of_table(table)
        .into_iter()
        .map(|r| (u64::from(r.task), r.frame as u64));
    frames
        .map(|(task, frame)| Ok((task, frame, desk::response(table, task, frame)?)))
        .collect()
}

// The whole buffer is said, all ee before: what stands around the list must stay.
fn overload(table: &[u8], length: usize, place: usize) -> Line {
    let mut buffer = vec![0xee; length];
    let written = desk::overload(table, &mut buffer, place);
    unless_refused(written, |bytes| {
        Line::fine(format!("written {bytes} {}", lines::hex(&buffer)))
    })
}
