//! The exit status of a call and of each line of a batch.
use std::process::ExitCode;

/// How a question went. Of several, the greatest counts.
#[derive(Debug, Clone, Copy, PartialEq, Eq, PartialOrd, Ord)]
pub enum Status {
    /// Answered, and nothing bad.
    Fine = 0,
    /// Answered: overloaded, undecided, late or a miss.
    BadNews = 1,
    Refused = 2,
    /// It could not be asked, or its answer could not be written.
    NotAsked = 3,
}

impl From<Status> for ExitCode {
    fn from(status: Status) -> ExitCode {
        ExitCode::from(status as u8)
    }
}
