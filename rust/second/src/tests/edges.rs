//! The edges that the readings name: zero questions, least margins, widths, long lists.

use super::{a, a_with, b, record, sporadic, task};
use crate::*;

#[test]
fn zero_is_answered_with_zero() {
    let table = sporadic(&[(65_535, 1, 1), (1, 1, 1)]);
    assert_eq!(demand(&table, 0, 0), Ok(0));
    assert_eq!(work(&table, 0, 0), Ok(0));
    assert_eq!(margin(&table, 0), Ok(0));
    assert_eq!(work(&table, 0, 1), Ok(65_535));
}

#[test]
fn t_of_one_counts_in_the_least_margin() {
    let fits = Verdict::Fits {
        window: 1,
        margin: 1,
        at: 1,
    };
    assert_eq!(verdict(&sporadic(&[(1, 10, 10)])), Ok(fits));
}

#[test]
fn the_window_of_an_overloaded_table() {
    assert!(matches!(verdict(&b()), Ok(Verdict::Overloaded { .. })));
    let w = window(&b()).unwrap().unwrap();
    let sum = |w| work(&b(), 0, w).unwrap() + work(&b(), 1, w).unwrap();
    assert!(sum(w) <= w);
    assert!((1..w).all(|lower| sum(lower) > lower));
    assert_eq!(window(&sporadic(&[(2, 65_535, 1)])), Ok(None));
}

#[test]
fn a_task_without_demand_starts_at_zero() {
    // Task 1 has no request that is due by the overload at 1; task 2 starts at its frame 1.
    let table = [
        record(0, 1, 1, 1, 5),
        task(1, 3, &[(1, 9, 9), (2, 9, 9)]),
        task(2, 3, &[(1, 2, 9), (3, 1, 9), (3, 1, 9)]),
    ]
    .concat();
    let mut starts = [0; 16];
    starts[2] = 1;
    let over = Verdict::Overloaded {
        t: 1,
        margin: -3,
        starts,
    };
    assert_eq!(verdict(&table), Ok(over));
    let list = overload_list(&table).unwrap();
    assert_eq!(list, super::requests(&[(0, 0, 0), (2, 1, 0)]));
}

#[test]
fn responses_at_the_deadline() {
    let late = |value, round| Ok(Response::Late { value, round });
    let on_time = |value, rounds| Ok(Response::OnTime { value, rounds });
    let table = sporadic(&[(9, 8, 8)]);
    assert_eq!(response(&table, 0, 0), late(9, 0), "E above D");
    let table = sporadic(&[(1, 5, 5), (2, 3, 9)]);
    assert_eq!(response(&table, 0, 0), on_time(1, 0), "task 0");
    assert_eq!(response(&table, 1, 0), on_time(3, 1), "equal and repeats");
    let table = sporadic(&[(1, 2, 2), (2, 3, 9)]);
    assert_eq!(response(&table, 1, 0), late(4, 2), "equal and grows");
}

#[test]
fn the_peak_frame_is_the_lowest_of_equals() {
    // From frame 1 the next peak comes after 1 tick, from frame 2 after 9.
    let frames = [(1, 1, 9), (3, 1, 1), (3, 1, 9)];
    let table = [task(0, 3, &frames), record(1, 1, 1, 9, 9)].concat();
    let end = Response::OnTime { value: 7, rounds: 2 };
    assert_eq!(response(&table, 1, 0), Ok(end));
}

#[test]
fn sixty_four_bits_hold_the_widest() {
    let widest = sporadic(&[(65_535, 1, 1); 16]);
    assert_eq!(margin(&widest, 65_536), Ok(-68_718_362_624));
    let mut table = sporadic(&[(65_535, 1, 1); 15]);
    table.extend(record(15, 1, 65_535, 65_535, 65_535));
    let late = Response::Late {
        value: 64_422_608_910,
        round: 1,
    };
    assert_eq!(response(&table, 15, 0), Ok(late));
}

#[test]
fn rounds_on_time_are_at_most_d_minus_e() {
    let table = sporadic(&[(1, 5, 5), (1, 2, 9)]);
    let on_time = Response::OnTime { value: 2, rounds: 1 };
    assert_eq!(response(&table, 1, 0), Ok(on_time), "just D minus E");
    // Each tick brings one more unit, so each round raises the value by one, and it passes D late.
    let table = sporadic(&[(1, 1, 1), (1, 60_000, 60_000)]);
    let late = Response::Late {
        value: 60_001,
        round: 60_000,
    };
    assert_eq!(response(&table, 1, 0), Ok(late));
}

#[test]
fn a_list_may_be_longer_than_the_bench_takes() {
    let mut frames = [(1, 65_535, 1); 8];
    frames[0].1 = 8;
    let table: Vec<u8> = (0..8).flat_map(|n| task(n, 3, &frames)).collect();
    let list_of = overload_list(&table).unwrap();
    assert_eq!(list_of.len(), 4_193_792);
    assert_eq!(list(&table, &list_of), Err((10, 0)));
    assert_eq!(replay(&table, &list_of), Err((10, 0)));
    assert_eq!(overload_size(&table), Ok(4_193_792));
    let mut buffer = vec![0xee; list_of.len() + 2];
    assert_eq!(overload(&table, &mut buffer, 1), Ok(4_193_792));
    assert_eq!(buffer[0], 0xee);
    assert_eq!(buffer[1..list_of.len() + 1], list_of[..]);
    assert_eq!(buffer[list_of.len() + 1], 0xee);
}

#[test]
fn e_may_exceed_d_or_p() {
    assert_eq!(read(&sporadic(&[(9, 2, 3)])), Ok((1, 1)));
    let over = Verdict::Overloaded {
        t: 2,
        margin: -7,
        starts: [0; 16],
    };
    assert_eq!(verdict(&sporadic(&[(9, 2, 3)])), Ok(over));
}

#[test]
fn the_work_of_a_alone_closes_first_at_eight() {
    assert!((1..8).all(|w| work(&a(), 0, w).unwrap() > w));
    assert_eq!(work(&a_with(1, 4, 12), 1, 12), Ok(1));
    assert_eq!(work(&a_with(1, 4, 12), 1, 13), Ok(2));
}

#[test]
fn deadlines_that_differ_make_the_list_longer_still() {
    let mut table = Vec::new();
    for n in 0..8 {
        let mut frames = [(1, 65_535, 1); 8];
        frames[0].1 = u16::from(n) + 1;
        table.extend(task(n, 3, &frames));
    }
    assert_eq!(overload_list(&table).map(|list| list.len()), Ok(4_194_016));
}
