//! The answer lines, each with its exit status.
use crate::status::Status;
use desk::{Ending, Refusal, Response, Shape, Verdict};

/// An answer line, with no line feed, and the exit status that goes with it.
#[derive(Debug, Clone, PartialEq, Eq)]
pub struct Line {
    pub text: String,
    pub status: Status,
}

impl Line {
    /// An answer that is no bad news.
    pub fn fine(text: String) -> Line {
        Line {
            text,
            status: Status::Fine,
        }
    }

    pub fn bad_news(text: String) -> Line {
        Line {
            text,
            status: Status::BadNews,
        }
    }

    /// For a line of a batch that could not be asked.
    pub fn error(why: &str) -> Line {
        Line {
            text: format!("error {why}"),
            status: Status::NotAsked,
        }
    }
}

/// What is said of an answer, or the refusal.
pub fn unless_refused<A>(answer: Result<A, Refusal>, say: impl FnOnce(A) -> Line) -> Line {
    answer.map_or_else(refusal, say)
}

pub fn refusal(no: Refusal) -> Line {
    Line {
        text: format!("refused {} {}", no.number, no.index),
        status: Status::Refused,
    }
}

pub fn shape(s: Shape) -> Line {
    Line::fine(format!("table tasks={} records={}", s.tasks, s.records))
}

pub fn window(w: Option<u64>) -> Line {
    Line::fine(match w {
        Some(w) => format!("window {w}"),
        None => "window none".into(),
    })
}

pub fn verdict(v: Verdict) -> Line {
    match v {
        Verdict::Overloaded { t, margin, starts } => {
            let starts = starts.map(|s| s.to_string()).join(",");
            Line::bad_news(format!("overloaded t={t} margin={margin} starts={starts}"))
        }
        Verdict::Fits { window, margin, t } => {
            Line::fine(format!("fits window={window} margin={margin} at={t}"))
        }
        Verdict::Undecided => Line::bad_news("undecided".into()),
    }
}

pub fn response(r: Response) -> Line {
    match r {
        Response::OnTime { value, rounds } => Line::fine(format!("on-time value={value} rounds={rounds}")),
        Response::Late { value, round } => Line::bad_news(format!("late value={value} round={round}")),
    }
}

/// The responses of frames, given as (task, frame, response), on one line.
pub fn responses(all: Vec<(u64, u64, Response)>) -> Line {
    let parts = all.into_iter().map(|(task, frame, r)| {
        let Line { text, status } = response(r);
        (format!("{task}.{frame}:{}", text.replace(' ', "/")), status)
    });
    let (texts, statuses): (Vec<String>, Vec<Status>) = parts.unzip();
    Line {
        text: texts.join(" "),
        status: statuses.into_iter().max().unwrap_or(Status::Fine),
    }
}

pub fn ending(e: Ending) -> Line {
    match e {
        Ending::Missed { tick, record } => Line::bad_news(format!("miss tick={tick} record={record}")),
        Ending::AllMet { tick } => Line::fine(format!("all-met tick={tick}")),
    }
}

/// A run's digest before its ending.
pub fn trace((digest, e): (u64, Ending)) -> Line {
    let Line { text, status } = ending(e);
    Line {
        text: format!("trace {digest:016x} {text}"),
        status,
    }
}

/// Bytes as hex digits.
pub fn hex(bytes: &[u8]) -> String {
    const DIGITS: &[u8; 16] = b"0123456789abcdef";
    let digits = bytes.iter().flat_map(|b| [b >> 4, b & 15]);
    digits.map(|d| DIGITS[d as usize] as char).collect()
}
