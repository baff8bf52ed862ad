//! The rules of document 01 by brute force, one file for each idea.
//!
//! Nothing here rests on a theorem: every sum is a walk over arrivals, and every search looks
//! at each number in turn. The sentences of the document stand above what does them.

mod bench;
mod demand;
mod lines;
mod list;
mod overload;
mod response;
mod sums;
mod table;
#[cfg(test)]
mod tests;
mod verdict;
mod walk;
mod words;

// What a file has for others is `pub`; what only this program's files share is not.
pub use bench::*;
pub use demand::*;
pub use lines::*;
pub use list::*;
pub use overload::*;
pub use response::*;
pub use table::*;
pub use verdict::*;

/// "Every refusal is a refusal number with the record index".
pub type No = (u8, usize);
