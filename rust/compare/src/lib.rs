//! The comparison of the first program, the proved library, with the second, which knows
//! document 01 and the readings of it only: random tables and lists from a seed, every question asked of
//! both, every answer, byte and state compared.
//!
//! `sort`, `tables`, `special`, `damage`, `pace`, `lists` and `spoil` make the input; `questions`, `buffers`,
//! `bench`, `foreign` and `oddities` ask; `case` is one table with all that is asked about it, `run` many of
//! them.
mod answer;
mod ask;
mod bench;
mod buffers;
mod case;
mod cost;
pub mod counts;
mod damage;
pub mod difference;
mod expected;
mod faults;
pub mod first;
mod foreign;
mod kinds;
mod lists;
pub mod must;
mod oddities;
mod pace;
mod purse;
mod questions;
pub mod record;
mod rng;
pub mod run;
mod sort;
mod special;
mod spoil;
mod states;
mod tables;
#[cfg(test)]
mod tests;
