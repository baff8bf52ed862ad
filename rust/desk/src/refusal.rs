//! A refusal as an error.
use crate::meaning::Index;
use crate::{raw, refusals};
use std::error::Error;
use std::fmt;

/// A refusal's number and the record index that it carries.
#[derive(Debug, Clone, Copy, PartialEq, Eq)]
pub struct Refusal {
    pub number: u8,
    pub index: usize,
}

impl Refusal {
    /// None where nothing was refused, which is the number 0.
    pub(crate) fn of(said: raw::Refusal) -> Option<Refusal> {
        let raw::Refusal { number, index } = said;
        (number != 0).then_some(Refusal { number, index })
    }

    /// When a refusal of this number is given.
    pub fn when(&self) -> String {
        match refusals::of(self.number) {
            Some(meaning) => meaning.when(),
            None => "the library has a refusal of which nothing is known here".into(),
        }
    }
}

impl fmt::Display for Refusal {
    fn fmt(&self, f: &mut fmt::Formatter) -> fmt::Result {
        write!(f, "refused {}", self.number)?;
        if refusals::of(self.number).is_some_and(|meaning| meaning.index != Index::Zero) {
            write!(f, " at record {}", self.index)?;
        }
        write!(f, ": {}", self.when())
    }
}

impl Error for Refusal {}
