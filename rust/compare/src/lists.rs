//! The kinds of request lists: legal ones, and lists of no sense.
use crate::pace::{requests, Pace, Tasks, EARLY};
use crate::record::{list_of, Request};
use crate::rng::Rng;
use desk::{LAST_ARRIVAL, MOST_REQUESTS};

const MOST: u64 = MOST_REQUESTS as u64;

/// Some legal list, as requests, for one that is to be spoilt.
pub fn any_legal(rng: &mut Rng, tasks: &Tasks) -> Vec<Request> {
    let pace = Pace {
        most: rng.between(1, MOST),
        begin: (0, rng.pick(&[0, 20])),
        waits: 30,
        wait: (0, 12),
        ..EARLY
    };
    requests(rng, tasks, &pace)
}

pub fn earliest_arrivals(rng: &mut Rng, tasks: &Tasks) -> Vec<u8> {
    let most = rng.between(1, 60);
    Pace { most, ..EARLY }.build(rng, tasks)
}

pub fn late_arrivals(rng: &mut Rng, tasks: &Tasks) -> Vec<u8> {
    let pace = Pace {
        most: rng.between(1, 60),
        begin: (0, 15),
        waits: 50,
        wait: (1, 10),
        ..EARLY
    };
    pace.build(rng, tasks)
}

pub fn idle_gaps(rng: &mut Rng, tasks: &Tasks) -> Vec<u8> {
    let pace = Pace {
        most: rng.between(2, 30),
        waits: 30,
        wait: (40, 300),
        ..EARLY
    };
    pace.build(rng, tasks)
}

/// As many records as a list may have, where the arrivals have room for them.
pub fn full(rng: &mut Rng, tasks: &Tasks) -> Vec<u8> {
    let pace = Pace {
        begin: (0, 5),
        waits: 40,
        wait: (0, 8),
        ..EARLY
    };
    pace.build(rng, tasks)
}

/// Arrivals up to the last.
pub fn far_arrivals(rng: &mut Rng, tasks: &Tasks) -> Vec<u8> {
    let last = u64::from(LAST_ARRIVAL);
    let pace = Pace {
        begin: (rng.pick(&[0, last - 535, last]), last),
        most: rng.between(1, 30),
        waits: 50,
        wait: (0, 20_000),
        ..EARLY
    };
    pace.build(rng, tasks)
}

/// Several tasks at one arrival.
pub fn together(rng: &mut Rng, tasks: &Tasks) -> Vec<u8> {
    let beat = rng.between(2, 40);
    let pace = Pace {
        most: rng.between(2, MOST),
        begin: (0, beat),
        waits: 20,
        wait: (0, 40),
        beat,
    };
    pace.build(rng, tasks)
}

pub fn empty(_: &mut Rng, _: &Tasks) -> Vec<u8> {
    Vec::new()
}

/// Raw noise of any length up to a little above the limit.
pub fn noise(rng: &mut Rng, _: &Tasks) -> Vec<u8> {
    let n = rng.between(0, 1_100) as usize;
    let n = if rng.chance(60) { n / 8 * 8 } else { n };
    rng.bytes(n)
}

/// Noise in which most fields are good ones.
pub fn mild_noise(rng: &mut Rng, tasks: &Tasks) -> Vec<u8> {
    let mut all = Vec::new();
    let mut arrival = 0;
    for _ in 0..rng.between(1, 20) {
        let (no_task, no_frame) = (u64::from(rng.chance(3)), u64::from(rng.chance(3)));
        let task = rng.below(tasks.len() as u64 + no_task);
        let frames = tasks.get(task as usize).map_or(1, |t| t.len() as u64);
        let frame = rng.below(frames + no_frame) as u8;
        let pad = [u8::from(rng.chance(1)), u8::from(rng.chance(1))];
        arrival += rng.between(0, 30) as u32;
        all.push(Request {
            task: task as u8,
            frame,
            pad,
            arrival,
        });
    }
    list_of(&all)
}
