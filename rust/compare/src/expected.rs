//! The second program's answers as the first one's flat structs, so that every field is compared: those that an answer
//! does not use are 0, and of a refusal all but its number and index.
use crate::states::{flat_state, BLANK};
use desk::raw::{self, Refusal, FITS, OVERLOADED, UNDECIDED};
use second::{End, No};

// The refusal, or zeros.
fn refusal<A>(said: &Result<A, No>) -> Refusal {
    let (number, index) = said.as_ref().err().copied().unwrap_or_default();
    Refusal { number, index }
}

pub fn shape(said: Result<(usize, usize), No>) -> raw::Shape {
    let refusal = refusal(&said);
    let (tasks, records) = said.unwrap_or_default();
    raw::Shape {
        refusal,
        tasks,
        records,
    }
}

/// A demand or a work.
pub fn amount(said: Result<u64, No>) -> raw::Amount {
    let refusal = refusal(&said);
    let amount = said.unwrap_or_default();
    raw::Amount { refusal, amount }
}

pub fn margin(said: Result<i64, No>) -> raw::Margin {
    let refusal = refusal(&said);
    let margin = said.unwrap_or_default();
    raw::Margin { refusal, margin }
}

pub fn window(said: Result<Option<u64>, No>) -> raw::Window {
    let refusal = refusal(&said);
    let window = said.unwrap_or_default();
    raw::Window {
        refusal,
        closes: window.is_some(),
        window: window.unwrap_or(0),
    }
}

pub fn verdict(said: Result<second::Verdict, No>) -> raw::Verdict {
    let refusal = refusal(&said);
    let none = [0; desk::MOST_TASKS];
    let (verdict, t, margin, window, starts) = match said {
        Err(_) => (0, 0, 0, 0, none),
        Ok(second::Verdict::Overloaded { t, margin, starts }) => (OVERLOADED, t, margin, 0, starts),
        Ok(second::Verdict::Fits { window, margin, at }) => (FITS, at, margin, window, none),
        Ok(second::Verdict::Undecided) => (UNDECIDED, 0, 0, 0, none),
    };
    raw::Verdict {
        refusal,
        verdict,
        t,
        margin,
        window,
        starts,
    }
}

pub fn response(said: Result<second::Response, No>) -> raw::Response {
    let refusal = refusal(&said);
    let (late, value, round) = match said {
        Err(_) => (false, 0, 0),
        Ok(second::Response::OnTime { value, rounds }) => (false, value, rounds),
        Ok(second::Response::Late { value, round }) => (true, value, round),
    };
    raw::Response {
        refusal,
        late,
        value,
        round,
    }
}

/// The size of an overload list, or how much of it was written.
pub fn written(said: Result<usize, No>) -> raw::Written {
    let refusal = refusal(&said);
    let bytes = said.unwrap_or_default();
    raw::Written { refusal, bytes }
}

pub fn listed(said: Result<usize, No>) -> raw::Listed {
    let refusal = refusal(&said);
    let records = said.unwrap_or_default();
    raw::Listed { refusal, records }
}

/// A replay that has not ended is none that the first program could say: that is a panic, and so a difference.
pub fn ending(said: Result<(End, u32), No>) -> raw::Ending {
    let refusal = refusal(&said);
    let (missed, tick, index) = match said {
        Err(_) => (false, 0, 0),
        Ok((End::Missed { record }, tick)) => (true, tick, record),
        Ok((End::AllMet, tick)) => (false, tick, 0),
        Ok((End::Running, tick)) => panic!("the second program's replay still runs at tick {tick}"),
    };
    raw::Ending {
        refusal,
        missed,
        tick,
        index,
    }
}

pub fn loaded(said: &Result<(usize, second::State), No>) -> raw::Loaded {
    let held = said.as_ref().ok();
    raw::Loaded {
        refusal: refusal(said),
        records: held.map_or(0, |(records, _)| *records),
        state: held.map_or(BLANK, |(_, state)| flat_state(state)),
    }
}
