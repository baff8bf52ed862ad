//! What is said of a refusal number.

/// What the index of a refusal is.
#[derive(Debug, Clone, Copy, PartialEq, Eq)]
pub enum Index {
    Zero,
    InTable,
    FirstInTable,
    InList,
}

/// A refusal: when it is given, what its index is, and a command that gets it, with the reason and the answer.
pub struct Meaning {
    pub number: u8,
    pub(crate) when: fn() -> String,
    pub index: Index,
    pub because: &'static str,
    pub(crate) command: fn() -> String,
    pub answer: &'static str,
}

impl Index {
    pub fn says(self) -> &'static str {
        match self {
            Index::Zero => "The index is 0.",
            Index::InTable => "The index is that of the table's record, counted from 0.",
            Index::FirstInTable => "The index is that of the first such record, counted from 0.",
            Index::InList => "The index is that of the list's record, counted from 0.",
        }
    }
}

impl Meaning {
    /// When the refusal is given.
    pub fn when(&self) -> String {
        (self.when)()
    }

    /// A command that gets it, without the program's name.
    pub fn command(&self) -> String {
        (self.command)()
    }
}
