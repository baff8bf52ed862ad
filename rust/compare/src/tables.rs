//! The kinds of good tables.
use crate::rng::Rng;
use crate::sort::{Deadline, Sort, SMALL};

/// Small, near full load: fits and overloaded both occur.
pub fn near_full_load(rng: &mut Rng) -> Vec<u8> {
    let deadline = rng.pick(&[Deadline::Within, Deadline::Any]);
    Sort { deadline, ..SMALL }.build(rng)
}

pub fn d_above_p(rng: &mut Rng) -> Vec<u8> {
    let sort = Sort {
        kinds: &[1, 3],
        load: (85, 130),
        deadline: Deadline::Above,
        ..SMALL
    };
    sort.build(rng)
}

pub fn e_above_d(rng: &mut Rng) -> Vec<u8> {
    let sort = Sort {
        load: (10, 300),
        deadline: Deadline::Below,
        ..SMALL
    };
    sort.build(rng)
}

/// Any number of tasks and frames.
pub fn wide(rng: &mut Rng) -> Vec<u8> {
    let deadline = rng.pick(&[Deadline::Within, Deadline::Above, Deadline::Any]);
    let sort = Sort {
        tasks: (1, 16),
        frames: (1, 16),
        p: (20, 600),
        load: (40, 110),
        deadline,
        ..SMALL
    };
    sort.build(rng)
}

/// Exactly at a limit: 64 records, 16 tasks, 16 frames of a task, or two of them at once.
pub fn at_the_limits(rng: &mut Rng) -> Vec<u8> {
    let (tasks, frames) = rng.pick(&[(4, 16), (16, 4), (16, 1), (1, 16), (8, 8), (2, 16), (5, 16)]);
    let p = rng.pick(&[(30, 300), (500, 9_000)]);
    let deadline = rng.pick(&[Deadline::Within, Deadline::Above, Deadline::Any]);
    let sort = Sort {
        tasks: (tasks, tasks),
        frames: (frames, frames),
        kinds: &[2, 3],
        p,
        load: (40, 105),
        deadline,
    };
    sort.build(rng)
}

pub fn sporadic(rng: &mut Rng) -> Vec<u8> {
    let sort = Sort {
        tasks: (1, 8),
        kinds: &[1],
        p: (3, 60),
        deadline: Deadline::Any,
        ..SMALL
    };
    sort.build(rng)
}

pub fn multiframe(rng: &mut Rng) -> Vec<u8> {
    let sort = Sort {
        tasks: (1, 5),
        frames: (2, 5),
        kinds: &[2],
        p: (3, 60),
        load: (30, 105),
        ..SMALL
    };
    sort.build(rng)
}

pub fn generalized(rng: &mut Rng) -> Vec<u8> {
    let deadline = rng.pick(&[Deadline::Within, Deadline::Any]);
    let sort = Sort {
        frames: (2, 6),
        kinds: &[3],
        p: (2, 40),
        load: (50, 105),
        deadline,
        ..SMALL
    };
    sort.build(rng)
}

/// Many tasks with no D above P, so that every frame has a response.
pub fn priorities(rng: &mut Rng) -> Vec<u8> {
    let sort = Sort {
        tasks: (2, 10),
        p: (10, 200),
        load: (40, 100),
        ..SMALL
    };
    sort.build(rng)
}

/// More load than there is time for, and late deadlines: overloaded late, or undecided.
pub fn late_deadlines(rng: &mut Rng) -> Vec<u8> {
    let p = rng.pick(&[(400, 2_000), (2_000, 20_000), (20_000, 65_535)]);
    let deadline = Deadline::From(59_000, 65_535);
    let sort = Sort {
        tasks: (1, 3),
        kinds: &[1, 3],
        p,
        load: (90, 220),
        deadline,
        ..SMALL
    };
    sort.build(rng)
}

/// Requests that come thick, with deadlines far behind: the overload list has hundreds of them.
pub fn thick_requests(rng: &mut Rng) -> Vec<u8> {
    let deadline = Deadline::From(100, 600);
    let sort = Sort {
        tasks: (1, 3),
        kinds: &[1, 3],
        p: (1, 5),
        load: (110, 250),
        deadline,
        ..SMALL
    };
    sort.build(rng)
}

/// Large numbers in every field.
pub fn large_numbers(rng: &mut Rng) -> Vec<u8> {
    let deadline = rng.pick(&[Deadline::Within, Deadline::Any]);
    let sort = Sort {
        p: (3_000, 65_535),
        load: (40, 110),
        deadline,
        ..SMALL
    };
    sort.build(rng)
}
