//! A run is the same whatever its threads do, and a run that meets too little says so.
use super::wrong::{Slip, Wrong};
use crate::counts::{Counts, Section};
use crate::must::never_met;
use crate::run::{alone, run, Until};

#[test]
fn a_run_is_the_sum_of_its_cases() {
    let found = run(&Wrong(Slip::None), 2, Until::Cases(36));
    assert!(found.difference.is_none());
    let mut sum = Counts::default();
    (0..36).for_each(|case| sum.join(&alone(&Wrong(Slip::None), 2, case).counts));
    assert_eq!(found.counts, sum);
    assert_eq!(found.counts.of(Section::Tables, "near full load"), 2);
}

#[test]
fn a_run_of_one_case_meets_too_little() {
    let found = run(&Wrong(Slip::None), 2, Until::Cases(1));
    assert!(found.difference.is_none());
    assert!(!never_met(&found.counts).is_empty());
}
