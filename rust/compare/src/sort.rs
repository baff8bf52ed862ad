//! What a kind of good table is like, and the one function that builds a random table of it.
use crate::record::{table_of, Record};
use crate::rng::Rng;
use desk::MOST_RECORDS;

/// Where a frame's D lies.
#[derive(Clone, Copy)]
pub enum Deadline {
    /// From E to P, or P where E is above it.
    Within,
    /// Above P.
    Above,
    /// Below E.
    Below,
    /// From 1 to twice P.
    Any,
    /// From the one to the other, whatever P is.
    From(u64, u64),
}

/// What a kind of table is like; each pair is a least and a greatest. The load is in percent, of the whole
/// table.
pub struct Sort {
    pub tasks: (u64, u64),
    pub frames: (u64, u64),
    pub kinds: &'static [u8],
    pub p: (u64, u64),
    pub load: (u64, u64),
    pub deadline: Deadline,
}

pub const SMALL: Sort = Sort {
    tasks: (1, 4),
    frames: (1, 3),
    kinds: &[1, 2, 3],
    p: (2, 24),
    load: (80, 110),
    deadline: Deadline::Within,
};

fn field(x: u64) -> u16 {
    x.clamp(1, u64::from(u16::MAX)) as u16
}

fn deadline(rng: &mut Rng, rule: Deadline, e: u64, p: u64) -> u64 {
    match rule {
        Deadline::Within => rng.between(e.min(p), p),
        Deadline::Above => p + rng.between(1, 4 * p),
        Deadline::Below => rng.between(1, e.max(2) - 1),
        Deadline::Any => rng.between(1, 2 * p),
        Deadline::From(least, greatest) => rng.between(least, greatest),
    }
}

// A frame whose task has an even share of the load, more or less; a multiframe task's D is its P.
fn frame(rng: &mut Rng, sort: &Sort, task: u64, kind: u8, p: u64, share: u64) -> Record {
    let e = (p * share * rng.between(50, 150)).div_ceil(10_000);
    let e = if matches!(sort.deadline, Deadline::Below) && kind == 2 {
        e.max(p + 1)
    } else {
        e
    };
    let d = if kind == 2 {
        p
    } else {
        deadline(rng, sort.deadline, e, p)
    };
    Record {
        task: task as u8,
        kind,
        e: field(e),
        d: field(d),
        p: field(p),
    }
}

fn records(rng: &mut Rng, sort: &Sort) -> Vec<Record> {
    let tasks = rng.between(sort.tasks.0, sort.tasks.1);
    let share = rng.between(sort.load.0, sort.load.1) / tasks;
    let mut all: Vec<Record> = Vec::new();
    for task in 0..tasks {
        let kind = rng.pick(sort.kinds);
        let room = MOST_RECORDS as u64 - all.len() as u64 - (tasks - task - 1);
        let frames = if kind == 1 {
            1
        } else {
            rng.between(sort.frames.0, sort.frames.1).min(room)
        };
        let common = rng.between(sort.p.0, sort.p.1);
        for _ in 0..frames {
            let p = if kind == 2 {
                common
            } else {
                rng.between(sort.p.0, sort.p.1)
            };
            all.push(frame(rng, sort, task, kind, p, share.max(1)));
        }
    }
    all
}

impl Sort {
    /// A table of the sort.
    pub fn build(&self, rng: &mut Rng) -> Vec<u8> {
        table_of(&records(rng, self))
    }
}
