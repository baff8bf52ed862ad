//! What a question will cost, in nanoseconds, guessed from the table: the first program walks frame by frame
//! and t by t, so that a search that stops late takes minutes on some tables.
use crate::record::{tasks_of, Record};
use desk::HORIZON;

// Measured: a step of a walk, a tick of both benches with their states compared, and what the second program
// spends on a record in a search to the limit.
const STEP: f64 = 1.6;
pub const TICK: u64 = 1_200;
const RECORD_TO_LIMIT: f64 = 150_000.0;

/// The costs of one table; all zero where it is refused.
#[derive(Default)]
pub struct Cost {
    tasks: Vec<Vec<Record>>,
    window_end: u64,
    verdict_end: u64,
    overloaded: bool,
}

// Frames of a task that arrive in t ticks, on the average; one at least.
fn arrivals(frames: &[Record], t: f64) -> f64 {
    let round: f64 = frames.iter().map(|r| f64::from(r.p)).sum();
    t * frames.len() as f64 / round + 1.0
}

// The walks over all starts of all tasks at one t.
fn walk(tasks: &[Vec<Record>], t: f64) -> f64 {
    tasks
        .iter()
        .map(|frames| frames.len() as f64 * arrivals(frames, t) * STEP)
        .sum()
}

// A search t by t up to its end, at a walk each.
fn search(tasks: &[Vec<Record>], end: u64) -> f64 {
    end as f64 * walk(tasks, end as f64 / 2.0)
}

// Where the search for a window stops, or a window from which on it could not be paid. Work never falls as the
// window grows, so that no window closes below the work.
fn window_end(table: &[u8], tasks: &[Vec<Record>], most: u64) -> u64 {
    let mut w = 1;
    for _ in 0..300 {
        let work: u64 = (0..tasks.len() as u64)
            .map(|k| second::work(table, k, w).unwrap_or(0))
            .sum();
        if work <= w || HORIZON <= w || search(tasks, w) > most as f64 {
            return w;
        }
        w = work.min(HORIZON);
    }
    HORIZON
}

// Some t with an overload, tried at the deadlines and at steps that grow, while a search up to there could be
// paid.
fn some_overload(table: &[u8], tasks: &[Vec<Record>], most: u64) -> Option<u64> {
    let deadlines = tasks.iter().flatten().map(|r| u64::from(r.d));
    let steps = std::iter::successors(Some(1), |t: &u64| Some(t + 1 + t / 8));
    let mut tries: Vec<u64> = deadlines
        .chain(steps.take_while(|&t| t < HORIZON))
        .chain([HORIZON])
        .collect();
    tries.sort_unstable();
    tries.dedup();
    let mut payable = tries.into_iter().take_while(|&t| search(tasks, t) <= most as f64);
    payable.find(|&t| second::margin(table, t).is_ok_and(|m| m < 0))
}

impl Cost {
    /// The costs of a good table, where a question may cost so much at most.
    pub fn of(table: &[u8], most: u64) -> Cost {
        let tasks = tasks_of(table);
        let window_end = window_end(table, &tasks, most);
        let overload = some_overload(table, &tasks, most);
        let verdict_end = window_end.min(overload.unwrap_or(HORIZON));
        Cost {
            tasks,
            window_end,
            verdict_end,
            overloaded: overload.is_some(),
        }
    }

    // What the second program spends where it looks at every number up to the limit.
    fn to_limit(&self) -> f64 {
        self.tasks.iter().map(|t| t.len() as f64).sum::<f64>() * RECORD_TO_LIMIT
            + walk(&self.tasks, HORIZON as f64)
    }

    pub fn window(&self) -> u64 {
        let more = if self.window_end < HORIZON {
            0.0
        } else {
            self.to_limit()
        };
        (search(&self.tasks, self.window_end) + more) as u64
    }

    pub fn verdict(&self) -> u64 {
        let more = if self.overloaded { 0.0 } else { self.to_limit() };
        (2.0 * search(&self.tasks, self.verdict_end) + more) as u64
    }

    /// A demand, a work or a margin at t.
    pub fn number(&self, t: u64) -> u64 {
        if t > HORIZON {
            0
        } else {
            2 * walk(&self.tasks, t as f64) as u64
        }
    }

    /// The response of a frame: each round takes in one arrival at least, and walks all that came before.
    pub fn response(&self, task: u64, frame: u64) -> u64 {
        let Some(asked) = self.tasks.get(task as usize).and_then(|t| t.get(frame as usize)) else {
            return 0;
        };
        let higher = &self.tasks[..task as usize];
        let sum =
            |f: fn(&Record) -> u16| move |t: &Vec<Record>| t.iter().map(|r| f64::from(f(r))).sum::<f64>();
        let load: f64 = higher.iter().map(|t| sum(|r| r.e)(t) / sum(|r| r.p)(t)).sum();
        let once: f64 = higher.iter().map(sum(|r| r.e)).sum::<f64>() + f64::from(asked.e);
        let greatest = if load < 1.0 { once / (1.0 - load) } else { f64::MAX };
        let all: f64 = higher
            .iter()
            .map(|t| arrivals(t, greatest.min(f64::from(asked.d))))
            .sum();
        let rounds = (all + 1.0).min(f64::from(asked.d.saturating_sub(asked.e)) + 1.0);
        (2.0 * STEP * rounds * all) as u64
    }
}
