//! Tables that no rule of thumb builds: values at the edges, the document's own tables, and bytes of no
//! sense.
use crate::record::{table_of, Record};
use crate::rng::Rng;
use desk::HORIZON;

const EDGES: [u16; 10] = [1, 2, 21_846, 32_767, 32_768, 32_769, 65_533, 65_534, 65_535, 3];

/// E, D and P each at an edge of what they can be.
pub fn edges(rng: &mut Rng) -> Vec<u8> {
    let mut all = Vec::new();
    for task in 0..rng.between(1, 3) as u8 {
        let kind = rng.pick(&[1, 1, 2, 3]);
        let common = rng.pick(&EDGES);
        for _ in 0..if kind == 1 { 1 } else { rng.between(1, 3) } {
            let p = if kind == 2 { common } else { rng.pick(&EDGES) };
            let d = if kind == 2 { p } else { rng.pick(&EDGES) };
            all.push(Record {
                task,
                kind,
                e: rng.pick(&EDGES),
                d,
                p,
            });
        }
    }
    table_of(&all)
}

/// A task of which one request falls due at the last t that is looked at. There it is an overload by a little, or just
/// none; before that it is none, since P is at most E.
pub fn at_the_last_t(rng: &mut Rng) -> Vec<u8> {
    let due = rng.between(2, 8) as u16;
    let share = (HORIZON / u64::from(due)) as u16;
    let p = rng.between(2_000, u64::from(share)) as u16;
    let d = (HORIZON - u64::from(due - 1) * u64::from(p)) as u16;
    let e = share + rng.between(0, 2) as u16;
    let (task, kind) = (0, 1);
    table_of(&[Record { task, kind, e, d, p }])
}

// Task, kind, E, D, P.
type Row = (u8, u8, u16, u16, u16);

const A: [Row; 4] = [(0, 3, 1, 2, 3), (0, 3, 2, 2, 2), (0, 3, 5, 8, 3), (0, 3, 1, 5, 4)];
const K7: [Row; 3] = [(0, 3, 2, 2, 2), (0, 3, 1, 20, 1), (0, 3, 2, 2, 10)];
const F: [Row; 8] = [
    (0, 2, 1, 3, 3),
    (1, 2, 2, 9, 9),
    (2, 2, 3, 18, 18),
    (2, 2, 1, 18, 18),
    (3, 2, 2, 20, 20),
    (3, 2, 1, 20, 20),
    (4, 2, 6, 60, 60),
    (4, 2, 3, 60, 60),
];

const NAMED: [(&[Row], &[Row]); 12] = [
    (&A, &[]),
    (&A, &[(1, 1, 1, 4, 12)]),
    (&A, &[(1, 1, 1, 2, 10)]),
    (&[(0, 1, 1, 1, 1)], &[]),
    (&[(0, 1, 1, 1, 1)], &[(1, 1, 1, 1, 1)]),
    (&K7, &[]),
    (&K7, &[(1, 1, 2, 5, 10)]),
    (&F, &[]),
    (&[(0, 1, 65_535, 65_535, 65_535)], &[]),
    (&[(0, 1, 32_769, 65_535, 1)], &[]),
    (&[(0, 1, 21_846, 65_535, 1)], &[]),
    (&[(0, 1, 2, 65_535, 1)], &[]),
];

/// A table of document 01, as it stands there or with one field of one record a little off.
pub fn of_the_document(rng: &mut Rng) -> Vec<u8> {
    let (first, more) = rng.pick(&NAMED);
    let row = |&(task, kind, e, d, p): &Row| Record { task, kind, e, d, p };
    let mut table = table_of(&first.iter().chain(more).map(row).collect::<Vec<_>>());
    if rng.chance(50) {
        let at = 8 * rng.below(table.len() as u64 / 8) as usize + rng.pick(&[2, 4, 6]);
        table[at] = table[at].wrapping_add(rng.pick(&[1, 255]));
    }
    table
}

/// Raw noise of any length from 0 to 600 bytes.
pub fn noise(rng: &mut Rng) -> Vec<u8> {
    let n = rng.between(0, 600) as usize;
    let n = if rng.chance(60) { n / 8 * 8 } else { n };
    rng.bytes(n)
}

/// Noise in which most fields are good ones: it is refused late, or not at all.
pub fn mild_noise(rng: &mut Rng) -> Vec<u8> {
    let mut all = Vec::new();
    let (mut task, mut kind) = (0, rng.pick(&[1, 2, 3]));
    for _ in 0..rng.between(1, 66) {
        let p = rng.between(1, 50) as u16;
        let d = if kind == 2 { p } else { rng.between(1, 80) as u16 };
        let wild = rng.chance(2);
        let any = rng.next() as u8;
        all.push(Record {
            task: if wild { any } else { task },
            kind,
            e: rng.between(1, 3) as u16,
            d,
            p,
        });
        if kind != 3 || rng.chance(20) {
            task += 1;
            kind = if rng.chance(2) {
                any
            } else {
                rng.pick(&[1, 2, 3, 3])
            };
        }
    }
    table_of(&all)
}
