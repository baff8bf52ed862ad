//! The replay bench: a state, one tick of it, and the run to its end.

use crate::list::parse_list;
use crate::table::parse;
use crate::No;

/// "All runs end by tick 131,070."
const LAST_TICK: u32 = 131_070;

#[derive(Debug, Clone, PartialEq)]
pub enum End {
    Running,
    Missed { record: usize },
    AllMet,
}

/// A bench state: for each record of the list what it has left, when it is due, when it arrives,
/// from when on it may run, which is its arrival, and its task. Slots past the list hold 0 in every
/// array.
#[derive(Debug, Clone, PartialEq)]
pub struct State {
    pub tick: u32,
    pub left: [u32; 128],
    pub due: [u32; 128],
    pub arrive: [u32; 128],
    pub release: [u32; 128],
    pub task: [u8; 128],
    pub end: End,
}

/// The number of records of a legal list and the state before its first tick. "The bench keeps
/// 128 amounts left, all zero before loading."
pub fn load(table: &[u8], list: &[u8]) -> Result<(usize, State), No> {
    let table = parse(table)?;
    let requests = parse_list(&table, list)?;
    let mut state = State {
        tick: 0,
        left: [0; 128],
        due: [0; 128],
        arrive: [0; 128],
        release: [0; 128],
        task: [0; 128],
        end: End::Running,
    };
    for (index, request) in requests.iter().enumerate() {
        let frame = &table.tasks[request.task].frames[request.frame];
        state.left[index] = frame.e as u32;
        // "A request arriving at a must be done by a + D."
        state.due[index] = (request.arrival + frame.d) as u32;
        state.arrive[index] = request.arrival as u32;
        state.release[index] = request.arrival as u32;
        state.task[index] = request.task as u8;
    }
    Ok((requests.len(), state))
}

/// "Each tick takes a bench state and hands back the next." Said for any state whatever.
pub fn tick(mut state: State) -> State {
    // "A stopped bench, after a miss or all met, comes back from a tick unchanged, and so does
    // a state past that last tick."
    if state.end != End::Running || state.tick > LAST_TICK {
        return state;
    }
    if let Some(record) = missed(&state) {
        state.end = End::Missed { record };
        return state;
    }
    // "all met with the tick after the last unit (0 for an empty list)": the tick at which
    // nothing is left, and it stays.
    if state.left.iter().all(|left| *left == 0) {
        state.end = End::AllMet;
        return state;
    }
    // "Otherwise one unit goes to" the first; "with none, the tick is idle."
    if let Some(record) = first(&state) {
        state.left[record] -= 1;
    }
    state.tick += 1;
    state
}

/// "At tick T, first any request with work left and deadline at most T is a miss; the bench
/// stops and names the one with the lowest record index."
fn missed(state: &State) -> Option<usize> {
    (0..128).find(|&record| state.left[record] > 0 && state.due[record] <= state.tick)
}

/// "the arrived, unfinished request with the earliest deadline, ties by lower task, then earlier
/// arrival"; among fully equal ones the lowest record index.
fn first(state: &State) -> Option<usize> {
    let mut first: Option<usize> = None;
    for record in 0..128 {
        if state.left[record] == 0 || state.release[record] > state.tick {
            continue;
        }
        match first {
            Some(best) if order(state, best) <= order(state, record) => {}
            _ => first = Some(record),
        }
    }
    first
}

fn order(state: &State, record: usize) -> (u32, u8, u32) {
    (state.due[record], state.task[record], state.arrive[record])
}

/// "It answers the miss, or all met with the tick": the end and its tick.
pub fn replay(table: &[u8], list: &[u8]) -> Result<(End, u32), No> {
    let (_, state) = load(table, list)?;
    let state = run(state, |_| ());
    Ok((state.end, state.tick))
}

/// Ticks a loaded state to its end and shows each state once: that of each tick from 0 to the
/// end's tick. The stop itself changes neither the tick nor what is left, so it isn't shown.
pub(crate) fn run(mut state: State, mut show: impl FnMut(&State)) -> State {
    while state.end == End::Running && state.tick <= LAST_TICK {
        show(&state);
        state = tick(state);
    }
    state
}
