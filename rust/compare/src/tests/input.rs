//! The good tables are good and the legal lists legal, so that the comparison is not of refusals only; and
//! the damaged ones meet every refusal of a table and of a list.
use crate::kinds::{LISTS, TABLES};
use crate::record::tasks_of;
use crate::rng::Rng;
use desk::{refusals, Index, MOST_LIST_BYTES, MOST_TABLE_BYTES, MOST_TASKS};

const GOOD_TABLES: usize = 13;
const LEGAL_LISTS: usize = 7;

#[test]
fn the_kinds_that_are_good_are_read() {
    for (name, build) in &TABLES[..GOOD_TABLES] {
        for case in 0..200 {
            let table = build(&mut Rng::new(5, case));
            assert!(second::read(&table).is_ok(), "{name}, case {case}: {table:?}");
        }
    }
}

#[test]
fn the_kinds_that_are_legal_are_legal() {
    for (_, build) in &TABLES[..GOOD_TABLES] {
        for (name, list) in &LISTS[..LEGAL_LISTS] {
            for case in 0..20 {
                let mut rng = Rng::new(6, case);
                let table = build(&mut rng);
                let list = list(&mut rng, &tasks_of(&table));
                assert_eq!(
                    second::list(&table, &list),
                    Ok(list.len() / 8),
                    "{name}, case {case}"
                );
            }
        }
    }
}

#[test]
fn the_limits_are_met_exactly() {
    let at_the_limits = TABLES
        .iter()
        .find(|kind| kind.0 == "at the limits")
        .expect("the kind is there")
        .1;
    let tables: Vec<Vec<u8>> = (0..100)
        .map(|case| at_the_limits(&mut Rng::new(7, case)))
        .collect();
    assert!(tables.iter().any(|t| t.len() == MOST_TABLE_BYTES));
    assert!(tables.iter().any(|t| tasks_of(t).len() == MOST_TASKS));
    assert!(tables
        .iter()
        .any(|t| tasks_of(t).iter().any(|frames| frames.len() == 16)));
}

#[test]
fn a_full_list_has_as_many_records_as_there_can_be() {
    let full = LISTS
        .iter()
        .find(|kind| kind.0 == "full")
        .expect("the kind is there")
        .1;
    let table = TABLES[0].1(&mut Rng::new(8, 0));
    assert_eq!(
        full(&mut Rng::new(8, 1), &tasks_of(&table)).len(),
        MOST_LIST_BYTES
    );
}

#[test]
fn one_fault_shows_as_each_refusal_of_a_record() {
    let one_fault = TABLES
        .iter()
        .find(|kind| kind.0 == "one fault")
        .expect("the kind is there")
        .1;
    let met = |number| {
        (0..500).any(|case| second::read(&one_fault(&mut Rng::new(9, case))).is_err_and(|no| no.0 == number))
    };
    let of_a_record = refusals::ALL
        .iter()
        .filter(|meaning| meaning.index == Index::InTable);
    of_a_record.for_each(|meaning| assert!(met(meaning.number), "refusal {}", meaning.number));
}

#[test]
fn one_fault_of_a_list_shows_as_10_and_as_11() {
    let one_fault = LISTS
        .iter()
        .find(|kind| kind.0 == "one fault")
        .expect("the kind is there")
        .1;
    let table = TABLES[7].1(&mut Rng::new(10, 0));
    let met = |number| {
        (0..200).any(|case| {
            let list = one_fault(&mut Rng::new(10, case), &tasks_of(&table));
            second::list(&table, &list).is_err_and(|no| no.0 == number)
        })
    };
    assert!(met(10) && met(11));
}
