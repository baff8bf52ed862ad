//! The program `limpidorsa`, run as a user would run it, from the top of the repository.
mod batch;
mod errors;
mod files;
mod judge;
mod lists;
mod people;
mod program;
mod questions;
mod refused;
mod words;
