//! The items of a file. Types and values stay text here: what they mean is found later, and only of what is written.

/// An item that may be written, or that leads to one.
#[derive(Debug, PartialEq, Eq)]
pub enum Item {
    /// The names that the file brings in here, each with the path behind it.
    Use(Vec<(String, String)>),
    Module {
        name: String,
        public: bool,
    },
    Const(Const),
    Struct(Struct),
    Function(Function),
    /// What neither is written nor leads to anything: functions of other names, enums, what is for proofs only.
    Other,
}

#[derive(Debug, PartialEq, Eq)]
pub struct Const {
    pub name: String,
    pub of: String,
    pub value: String,
    pub public: bool,
}

#[derive(Debug, PartialEq, Eq)]
pub struct Struct {
    pub name: String,
    /// The names and types of its fields, or None where it has not the layout of C.
    pub fields: Option<Vec<(String, String)>>,
}

#[derive(Debug, PartialEq, Eq)]
pub struct Function {
    pub name: String,
    pub parameters: Vec<(String, String)>,
    pub result: Option<String>,
    /// Its clauses, as they stand.
    pub contract: String,
    /// Whether C finds it under its name.
    pub exported: bool,
}
