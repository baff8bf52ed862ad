//! The running sums held to direct walks, and whole answers to each other, on random tables.

use super::Source;
use crate::sums::{demands, works};
use crate::table::parse;
use crate::*;

/// Sums of all tasks at one number by direct walks.
fn by_walks(table: &[u8], t: u64) -> (u64, u64) {
    let (tasks, _) = read(table).unwrap();
    let numbers = 0..tasks as u64;
    let demands = numbers.clone().map(|n| demand(table, n, t).unwrap());
    let works = numbers.map(|n| work(table, n, t).unwrap());
    (demands.sum(), works.sum())
}

#[test]
fn running_sums_are_the_walks() {
    let mut source = Source(1);
    for round in 0..60 {
        let table = source.table([6, 40, 300][round % 3]);
        let parsed = parse(&table).unwrap();
        for horizon in [1, 64, 200] {
            let (all_demands, all_works) = (demands(&parsed, horizon), works(&parsed, horizon));
            for t in 0..=horizon {
                let (demand, work) = by_walks(&table, t);
                assert_eq!(all_demands[t as usize], demand);
                assert_eq!(all_works[t as usize], work);
            }
        }
    }
}

#[test]
fn verdicts_are_what_single_questions_give() {
    let mut source = Source(2);
    let (mut overloads, mut fitting) = (0, 0);
    for round in 0..400 {
        let table = source.table([12, 60, 400][round % 3]);
        let margin = |t| margin(&table, t).unwrap();
        match verdict(&table).unwrap() {
            Verdict::Overloaded { t, margin: given, .. } => {
                overloads += 1;
                assert_eq!(margin(t), given);
                assert!((1..t).all(|lower| margin(lower) >= 0));
                overload_holds(&table);
            }
            Verdict::Fits {
                window: w,
                margin: given,
                at,
            } => {
                fitting += 1;
                assert_eq!(window(&table), Ok(Some(w)));
                assert!((1..w).all(|lower| by_walks(&table, lower).1 > lower));
                assert!(by_walks(&table, w).1 <= w);
                let least = (1..=w).map(|t| (margin(t), t)).min().unwrap();
                assert_eq!(least, (given, at));
            }
            Verdict::Undecided => assert_eq!(window(&table), Ok(None)),
        }
    }
    assert!(overloads > 20 && fitting > 20, "{overloads} {fitting}");
}

/// An overload list that the bench takes is legal there and is missed.
fn overload_holds(table: &[u8]) {
    let bytes = overload_list(table).unwrap();
    assert_eq!(overload_size(table), Ok(bytes.len()));
    if bytes.len() <= 1_024 {
        assert_eq!(list(table, &bytes), Ok(bytes.len() / 8));
        let (end, _) = replay(table, &bytes).unwrap();
        assert!(matches!(end, End::Missed { .. }));
    }
}
