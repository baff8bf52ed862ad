//! A bench's state, from the one program to the other.
use desk::raw::{self, ALL_MET, MISSED, MOST_REQUESTS, RUNNING};
use second::End;

/// A state with nothing in it, which is also the bench of a refused list.
pub const BLANK: raw::State = raw::State {
    tick: 0,
    outcome: RUNNING,
    index: 0,
    left: [0; MOST_REQUESTS],
    due: [0; MOST_REQUESTS],
    arrive: [0; MOST_REQUESTS],
    release: [0; MOST_REQUESTS],
    task: [0; MOST_REQUESTS],
};

/// A state of the second program as the first has it.
pub fn flat_state(s: &second::State) -> raw::State {
    let (outcome, index) = match s.end {
        End::Running => (RUNNING, 0),
        End::Missed { record } => (MISSED, record),
        End::AllMet => (ALL_MET, 0),
    };
    raw::State {
        tick: s.tick,
        outcome,
        index,
        left: s.left,
        due: s.due,
        arrive: s.arrive,
        release: s.release,
        task: s.task,
    }
}

/// A state of the first program as the second holds it, where the second has such an outcome.
pub fn held(s: &raw::State) -> Option<second::State> {
    let end = match (s.outcome, s.index) {
        (RUNNING, _) => End::Running,
        (MISSED, record) => End::Missed { record },
        (ALL_MET, 0) => End::AllMet,
        _ => return None,
    };
    Some(second::State {
        tick: s.tick,
        left: s.left,
        due: s.due,
        arrive: s.arrive,
        release: s.release,
        task: s.task,
        end,
    })
}
