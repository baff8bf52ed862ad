//! Writes the C header and Rust's raw declarations from the Rattle source of crates/desk.
//!
//! It reads the layout that `rt fmt` writes and nothing else: the first line that it does not know stops it. Of every
//! file that lib.rt makes public it writes the constants that are public numbers, the structs of C's layout and the
//! public functions whose name begins with limpidorsa_, with the comments right above them. The static library over the
//! crate has to export these functions and no other, each with its parameters, its result and its clauses.
mod c;
mod declared;
mod error;
mod exports;
mod gather;
mod item;
mod members;
mod names;
mod note;
mod parse;
mod piece;
mod prototype;
mod raw;
mod source;
mod types;
mod value;

pub use error::Error;
pub use source::Source;

/// The crate whose public functions are for C and Rust.
const CRATE: &str = "desk";

/// The static library that exports them.
const ARCHIVE: &str = "desk_c";

/// Both texts.
#[derive(Debug)]
pub struct Texts {
    /// For crates/desk/limpidorsa.h.
    pub header: String,
    /// For rust/desk/src/raw.rs.
    pub raw: String,
}

/// What the source says.
pub fn texts(source: &Source) -> Result<Texts, Error> {
    let declarations = gather::gather(source, CRATE, ARCHIVE)?;
    Ok(Texts {
        header: c::header(&declarations),
        raw: raw::raw(&declarations),
    })
}
