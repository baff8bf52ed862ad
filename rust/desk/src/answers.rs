//! The answers as types of their own, made from the flat ones.
use crate::raw;

/// A verdict has a start frame for each task that a table may have.
pub const MOST_TASKS: usize = 16;

/// How many tasks and records a table has.
#[derive(Debug, Clone, Copy, PartialEq, Eq)]
pub struct Shape {
    pub tasks: usize,
    pub records: usize,
}

/// The earliest-deadline verdict on a table.
#[derive(Debug, Clone, Copy, PartialEq, Eq)]
pub enum Verdict {
    /// The least t with a margin below zero, that margin, and where each task starts for it; 0 past the last task.
    Overloaded {
        t: u64,
        margin: i64,
        starts: [u8; MOST_TASKS],
    },
    /// The closing window, the least margin up to it, and the first t that has it.
    Fits { window: u64, margin: i64, t: u64 },
    /// No overload and no closing window, up to the horizon.
    Undecided,
}

/// The response of a frame under fixed priorities.
#[derive(Debug, Clone, Copy, PartialEq, Eq)]
pub enum Response {
    /// The value that repeats, and its index in the recurrence.
    OnTime { value: u64, rounds: u64 },
    /// The first value that passes D, and its index.
    Late { value: u64, round: u64 },
}

/// How a replay ends.
#[derive(Debug, Clone, Copy, PartialEq, Eq)]
pub enum Ending {
    /// The tick at which a request was due with work left, and its record's index in the list.
    Missed { tick: u32, record: usize },
    /// The tick after the last unit.
    AllMet { tick: u32 },
}

impl Shape {
    pub(crate) fn of(said: &raw::Shape) -> Shape {
        Shape {
            tasks: said.tasks,
            records: said.records,
        }
    }
}

impl Verdict {
    pub(crate) fn of(said: &raw::Verdict) -> Verdict {
        let raw::Verdict {
            t,
            margin,
            window,
            starts,
            ..
        } = *said;
        match said.verdict {
            raw::OVERLOADED => Verdict::Overloaded { t, margin, starts },
            raw::FITS => Verdict::Fits { window, margin, t },
            raw::UNDECIDED => Verdict::Undecided,
            other => unreachable!("the library has three verdicts, and {other} is none of them"),
        }
    }
}

impl Response {
    pub(crate) fn of(said: &raw::Response) -> Response {
        let (value, round) = (said.value, said.round);
        if said.late {
            Response::Late { value, round }
        } else {
            Response::OnTime { value, rounds: round }
        }
    }
}

impl Ending {
    pub(crate) fn of(said: &raw::Ending) -> Ending {
        let (tick, record) = (said.tick, said.index);
        if said.missed {
            Ending::Missed { tick, record }
        } else {
            Ending::AllMet { tick }
        }
    }
}
