//! The tables whose verdicts are timed, and the list whose ticks are.
use compare::record::{list_of, table_of, Record, Request};
use desk::MOST_REQUESTS;

/// E, D, P of sporadic tasks.
pub type Sporadic = &'static [(u16, u16, u16)];

pub const SMALL_FITS: [Sporadic; 4] = [
    &[(1, 1, 1)],
    &[(3, 5, 10), (2, 9, 10), (4, 20, 20)],
    &[(2, 7, 7), (3, 11, 11), (5, 23, 23), (1, 40, 40)],
    &[(1, 4, 12), (5, 8, 12), (2, 24, 24)],
];
pub const SMALL_OVERLOADED: [Sporadic; 4] = [
    &[(1, 1, 1), (1, 1, 1)],
    &[(3, 5, 10), (3, 5, 10), (4, 20, 20)],
    &[(2, 7, 7), (5, 11, 11), (9, 23, 23), (3, 30, 40)],
    &[(2, 4, 6), (3, 8, 9), (9, 24, 24)],
];
pub const LATE_OVERLOAD: [Sporadic; 3] = [
    &[(2, 2_000, 1)],
    &[(30, 9_000, 20), (9, 9_000, 90)],
    &[(700, 20_000, 350), (1, 65_535, 300)],
];
pub const UNDECIDED: [Sporadic; 3] = [
    &[(40_000, 65_535, 30_000)],
    &[(2_000, 65_000, 1_900)],
    &[(6_000, 65_535, 9_000), (7_000, 65_535, 9_000)],
];

pub fn table(tasks: Sporadic) -> Vec<u8> {
    let record = |(task, &(e, d, p)): (usize, &_)| Record {
        task: task as u8,
        kind: 1,
        e,
        d,
        p,
    };
    table_of(&tasks.iter().enumerate().map(record).collect::<Vec<_>>())
}

/// Four tasks of sixteen frames, or sixteen of four, with loads under 1.
pub fn of_64_records() -> Vec<Vec<u8>> {
    let of = |frames: u16, p: u16| {
        let record = |i: u16| Record {
            task: (i / frames) as u8,
            kind: 3,
            e: 1 + i % 3,
            d: p + i,
            p: p + i % 7,
        };
        table_of(&(0..64).map(record).collect::<Vec<_>>())
    };
    vec![of(16, 30), of(4, 90), of(8, 200), of(4, 2_000)]
}

/// A table for each.
pub fn tables(all: &[Sporadic]) -> Vec<Vec<u8>> {
    all.iter().map(|tasks| table(tasks)).collect()
}

/// A full list of (3,40,20), (4,60,25), (9,90,30) and (1,30,30), with its table before it.
pub fn full_list() -> (Vec<u8>, Vec<u8>) {
    let table = table(&[(3, 40, 20), (4, 60, 25), (9, 90, 30), (1, 30, 30)]);
    let request = |i: u32| Request {
        task: (i % 4) as u8,
        frame: 0,
        pad: [0, 0],
        arrival: i / 4 * 30,
    };
    let requests = (0..MOST_REQUESTS as u32).map(request);
    (table, list_of(&requests.collect::<Vec<_>>()))
}
