//! The proved desk for Rust.
//!
//! `raw` is what the library exports, written from its source. `flat` calls it on Rust's slices and hands out each
//! answer as it comes. The functions here, one for each question, turn that into an answer of a type of its own or a
//! `Refusal`.
mod answers;
mod bench;
pub mod flat;
mod meaning;
mod numbers;
mod questions;
pub mod raw;
mod refusal;
pub mod refusals;
#[cfg(test)]
mod tests;

pub use answers::{Ending, Response, Shape, Verdict, MOST_TASKS};
pub use bench::Bench;
pub use meaning::{Index, Meaning};
pub use numbers::grouped;
pub use questions::*;
pub use raw::{HORIZON, LAST_ARRIVAL, LAST_REFUSAL, LAST_TICK};
pub use raw::{MOST_LIST_BYTES, MOST_RECORDS, MOST_REQUESTS, MOST_TABLE_BYTES};
pub use refusal::Refusal;
