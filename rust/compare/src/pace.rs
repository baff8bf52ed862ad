//! How a legal request list goes, and the one function that makes the requests of it.
use crate::record::{list_of, Record, Request};
use crate::rng::Rng;
use desk::{LAST_ARRIVAL, MOST_REQUESTS};

/// The tasks that a list is made for, each its frames.
pub type Tasks = [Vec<Record>];

/// How a legal list goes: at most so many requests, the first of a task from here to there, then in so many of
/// a hundred cases a wait beyond P; every arrival a multiple of the beat.
pub struct Pace {
    pub most: u64,
    pub begin: (u64, u64),
    pub waits: u64,
    pub wait: (u64, u64),
    pub beat: u64,
}

pub const EARLY: Pace = Pace {
    most: MOST_REQUESTS as u64,
    begin: (0, 0),
    waits: 0,
    wait: (0, 0),
    beat: 1,
};

// Where a task stands: its next frame and the least arrival of it.
#[derive(Clone, Copy)]
struct Next {
    task: usize,
    frame: usize,
    arrival: u64,
}

fn openings(rng: &mut Rng, tasks: &Tasks, pace: &Pace) -> Vec<Next> {
    let mut all = Vec::new();
    for (task, frames) in tasks.iter().enumerate() {
        let frame = rng.below(frames.len() as u64) as usize;
        let arrival = rng
            .between(pace.begin.0, pace.begin.1)
            .next_multiple_of(pace.beat);
        // Some tasks ask for nothing, but never all of them.
        if all.is_empty() || rng.chance(85) {
            all.push(Next { task, frame, arrival });
        }
    }
    all
}

/// The requests of a pace, in the list's order.
pub fn requests(rng: &mut Rng, tasks: &Tasks, pace: &Pace) -> Vec<Request> {
    let mut open = openings(rng, tasks, pace);
    let mut all = Vec::new();
    while (all.len() as u64) < pace.most {
        let Some(next) = open.iter_mut().min_by_key(|n| (n.arrival, n.task)) else {
            break;
        };
        if next.arrival > u64::from(LAST_ARRIVAL) {
            break;
        }
        let Next { task, frame, arrival } = *next;
        all.push(Request {
            task: task as u8,
            frame: frame as u8,
            pad: [0, 0],
            arrival: arrival as u32,
        });
        let wait = if rng.chance(pace.waits) {
            rng.between(pace.wait.0, pace.wait.1)
        } else {
            0
        };
        next.frame = (frame + 1) % tasks[task].len();
        next.arrival = (arrival + tasks[task][frame].p as u64 + wait).next_multiple_of(pace.beat);
    }
    all
}

impl Pace {
    /// A list of the pace.
    pub fn build(&self, rng: &mut Rng, tasks: &Tasks) -> Vec<u8> {
        list_of(&requests(rng, tasks, self))
    }
}
