//! What is written, with every name found: neither C nor Rust has to be looked into the source for it again.
use crate::types::Plain;

/// All of it, under the comment that opens lib.rt.
#[derive(Debug, PartialEq, Eq)]
pub struct Declarations {
    pub opening: Note,
    pub all: Vec<Declared>,
}

/// A comment, line by line.
pub type Note = Vec<String>;

/// A field of a struct, or a parameter of a function.
pub type Named = (String, Type);

#[derive(Debug, PartialEq, Eq)]
pub enum Declared {
    /// Constants that stand under one comment.
    Constants { note: Note, all: Vec<Constant> },
    Struct {
        note: Note,
        name: String,
        fields: Vec<Named>,
    },
    Function {
        note: Note,
        name: String,
        parameters: Vec<Named>,
        result: Option<Type>,
    },
}

#[derive(Debug, PartialEq, Eq)]
pub struct Constant {
    pub name: String,
    pub of: &'static Plain,
    pub value: i128,
}

#[derive(Debug, Clone, PartialEq, Eq)]
pub enum Type {
    Plain(&'static Plain),
    Array { of: &'static Plain, length: Length },
    Slice { of: &'static Plain, mutable: bool },
    Struct(String),
}

/// The length of an array: the name of a constant that is written before, or else a number.
#[derive(Debug, Clone, PartialEq, Eq)]
pub enum Length {
    Constant(String),
    Number(i128),
}
