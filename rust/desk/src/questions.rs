//! The questions, each with its answer or the refusal.
use crate::answers::{Ending, Response, Shape, Verdict};
use crate::bench::Bench;
use crate::flat;
use crate::raw;
use crate::refusal::Refusal;

// The answer, unless there is a refusal before it.
fn unless_refused<A>(refusal: raw::Refusal, answer: impl FnOnce() -> A) -> Result<A, Refusal> {
    Refusal::of(refusal).map_or_else(|| Ok(answer()), Err)
}

/// What the bytes are as a table.
pub fn read(table: &[u8]) -> Result<Shape, Refusal> {
    let said = flat::read(table);
    unless_refused(said.refusal, || Shape::of(&said))
}

/// The demand of a task at t.
pub fn demand(table: &[u8], task: u64, t: u64) -> Result<u64, Refusal> {
    let said = flat::demand(table, task, t);
    unless_refused(said.refusal, || said.amount)
}

/// The work of a task in a window w.
pub fn work(table: &[u8], task: u64, w: u64) -> Result<u64, Refusal> {
    let said = flat::work(table, task, w);
    unless_refused(said.refusal, || said.amount)
}

/// The margin of the whole table at t, below zero where more is asked than there is time.
pub fn margin(table: &[u8], t: u64) -> Result<i64, Refusal> {
    let said = flat::margin(table, t);
    unless_refused(said.refusal, || said.margin)
}

/// The closing window of the table, or none.
pub fn window(table: &[u8]) -> Result<Option<u64>, Refusal> {
    let said = flat::window(table);
    unless_refused(said.refusal, || said.closes.then_some(said.window))
}

/// The earliest-deadline verdict on the table.
pub fn verdict(table: &[u8]) -> Result<Verdict, Refusal> {
    let said = flat::verdict(table);
    unless_refused(said.refusal, || Verdict::of(&said))
}

/// The response of a frame under fixed priorities.
pub fn response(table: &[u8], task: u64, frame: u64) -> Result<Response, Refusal> {
    let said = flat::response(table, task, frame);
    unless_refused(said.refusal, || Response::of(&said))
}

/// How many bytes the overload list has.
pub fn overload_size(table: &[u8]) -> Result<usize, Refusal> {
    let said = flat::overload_size(table);
    unless_refused(said.refusal, || said.bytes)
}

/// The overload list, written into the buffer from the place on: how many bytes. A refused call changes no byte.
pub fn overload(table: &[u8], buffer: &mut [u8], place: usize) -> Result<usize, Refusal> {
    let said = flat::overload(table, buffer, place);
    unless_refused(said.refusal, || said.bytes)
}

/// The overload list, in a buffer of just its size.
pub fn overload_list(table: &[u8]) -> Result<Vec<u8>, Refusal> {
    let mut list = vec![0; overload_size(table)?];
    overload(table, &mut list, 0)?;
    Ok(list)
}

/// How many records a legal list has.
pub fn list(table: &[u8], list: &[u8]) -> Result<usize, Refusal> {
    let said = flat::list(table, list);
    unless_refused(said.refusal, || said.records)
}

/// The replay of a list by the earliest-deadline bench.
pub fn replay(table: &[u8], list: &[u8]) -> Result<Ending, Refusal> {
    let said = flat::replay(table, list);
    unless_refused(said.refusal, || Ending::of(&said))
}

/// The bench loaded with a list, to be ticked.
pub fn load(table: &[u8], list: &[u8]) -> Result<Bench, Refusal> {
    let said = flat::load(table, list);
    unless_refused(said.refusal, || Bench::of(&said))
}
