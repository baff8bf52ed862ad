//! Each refusal of a table in each way that it is given, and the order among them.

use super::{record, task};
use crate::*;

#[test]
fn refusal_1_length() {
    for length in [0, 1, 7, 9, 513, 520, 4_096] {
        assert_eq!(read(&vec![0; length]), Err((1, 0)), "{length}");
    }
    let mut many: Vec<u8> = (0..65).flat_map(|_| record(0, 3, 1, 1, 1)).collect();
    many[16] = 9;
    assert_eq!(read(&many), Err((1, 0)), "the length comes before records");
}

#[test]
fn refusal_2_the_run_of_tasks() {
    let good = |n| record(n, 1, 1, 1, 1);
    assert_eq!(read(&good(1)), Err((2, 0)), "the first is not task 0");
    assert_eq!(read(&good(16)), Err((2, 0)));
    assert_eq!(read(&good(255)), Err((2, 0)));
    assert_eq!(read(&[good(0), good(2)].concat()), Err((2, 1)), "a jump");
    let back = [good(0), good(1), good(0)].concat();
    assert_eq!(read(&back), Err((2, 2)), "a step back");
    let sixteen: Vec<u8> = (0..16).flat_map(good).collect();
    assert_eq!(read(&sixteen), Ok((16, 16)));
    let more = [sixteen, good(16)].concat();
    assert_eq!(read(&more), Err((2, 16)), "a proper run, but above 15");
}

#[test]
fn refusal_3_kinds() {
    for kind in [0, 4, 255] {
        assert_eq!(read(&record(0, kind, 1, 1, 1)), Err((3, 0)));
    }
    for (first, second) in [(1, 2), (1, 3), (2, 1), (2, 3), (3, 1), (3, 2), (1, 1)] {
        let table = [record(0, first, 1, 1, 1), record(0, second, 1, 1, 1)].concat();
        assert_eq!(read(&table), Err((3, 1)), "{first} {second}");
    }
}

#[test]
fn refusal_4_frames() {
    for kind in [2, 3] {
        assert_eq!(read(&task(0, kind, &[(1, 1, 1); 16])), Ok((1, 16)));
        let table = task(0, kind, &[(1, 1, 1); 17]);
        assert_eq!(read(&table), Err((4, 16)));
    }
    let later = [record(0, 1, 1, 1, 1), task(1, 3, &[(1, 1, 1); 17])].concat();
    assert_eq!(read(&later), Err((4, 17)));
}

#[test]
fn refusal_5_zeros() {
    for kind in [1, 2, 3] {
        for (e, d, p) in [(0, 1, 1), (1, 0, 1), (1, 1, 0), (1, 0, 0)] {
            assert_eq!(read(&record(0, kind, e, d, p)), Err((5, 0)));
        }
    }
}

#[test]
fn refusal_6_multiframe() {
    assert_eq!(read(&record(0, 2, 1, 2, 3)), Err((6, 0)));
    let table = task(0, 2, &[(1, 3, 3), (1, 2, 3)]);
    assert_eq!(read(&table), Err((6, 1)), "D not P");
    let table = task(0, 2, &[(1, 3, 3), (1, 4, 4)]);
    assert_eq!(read(&table), Err((6, 1)), "P unlike the task's first");
    let table = [task(0, 2, &[(1, 3, 3)]), task(1, 2, &[(1, 4, 4)])].concat();
    assert_eq!(read(&table), Ok((2, 2)), "another task's first");
}

#[test]
fn refusals_of_a_table_in_order() {
    let mut table = task(0, 2, &[(1, 3, 3); 17]);
    let last = 16 * 8;
    table[last..].copy_from_slice(&[2, 9, 0, 0, 1, 0, 2, 0]);
    for (number, byte, good) in [(2, 0, 0), (3, 1, 2), (4, 0, 0)] {
        assert_eq!(read(&table), Err((number, 16)));
        table[last + byte] = good;
    }
    let five_and_six = task(0, 2, &[(1, 3, 3), (0, 4, 3)]);
    assert_eq!(read(&five_and_six), Err((5, 1)));
    let six_then_two = [record(0, 2, 1, 2, 3), record(9, 1, 1, 1, 1)].concat();
    assert_eq!(read(&six_then_two), Err((6, 0)));
}
