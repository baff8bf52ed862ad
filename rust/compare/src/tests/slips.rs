//! The comparison is held to a first program that is wrong in one thing: it must stop there and say so.
use super::wrong::{Slip, Wrong};
use crate::first::First;
use crate::run::{alone, run, Until};
use crate::states::BLANK;
use desk::raw::{State, RUNNING};
use desk::{HORIZON, MOST_REQUESTS};

const SLIPS: [(Slip, &str); 13] = [
    (Slip::RefusedIndex, "read"),
    (Slip::RefusedField, "verdict"),
    (Slip::MarginAtLimit, "margin with the numbers"),
    (Slip::LastStart, "verdict"),
    (Slip::Round, "response"),
    (Slip::Size, "overload-size"),
    (Slip::GuardByte, "it is a guard byte"),
    (Slip::RefusedWrites, "overload into"),
    (Slip::OneTickOneSlot, "tick of the state"),
    (Slip::StoppedTicks, "tick of the state"),
    (Slip::Word, "the line: "),
    (Slip::ErrorAnswered, "the line: "),
    (Slip::Status, "the exit status of: "),
];

#[test]
fn each_slip_is_found_and_its_case_repeats_it() {
    for (slip, asked) in SLIPS {
        let found = run(&Wrong(slip), 1, Until::Cases(200));
        let (case, difference) = found
            .difference
            .unwrap_or_else(|| panic!("{slip:?} is not found"));
        assert!(
            difference.question.contains(asked),
            "{slip:?}: {}",
            difference.question
        );
        assert_ne!(difference.first, difference.second, "{slip:?}");
        let (again, repeated) = alone(&Wrong(slip), 1, case).difference.expect("found again");
        assert_eq!((again, &repeated.question), (case, &difference.question));
        let report = repeated.report(1, case);
        assert!(
            report.contains(&format!("compare --seed 1 --case {case}")),
            "{report}"
        );
    }
}

#[test]
fn a_panic_is_a_difference_with_its_table() {
    let (_, difference) = run(&Wrong(Slip::Panic), 1, Until::Cases(200))
        .difference
        .expect("the panic is found");
    assert!(difference.first.contains("panicked"), "{}", difference.first);
    assert_eq!(difference.table.len(), 8);
}

#[test]
fn a_difference_is_said_with_the_table_and_both_answers() {
    let found = run(&Wrong(Slip::MarginAtLimit), 1, Until::Cases(20));
    let (case, difference) = found.difference.expect("the slip is found");
    assert!(difference.question.ends_with(&format!("[{HORIZON}]")));
    let report = difference.report(1, case);
    let table: String = difference.table.iter().map(|b| format!("{b:02x}")).collect();
    assert!(report.contains(&table) && !table.is_empty(), "{report}");
    assert!(
        report.contains(&difference.first) && report.contains(&difference.second),
        "{report}"
    );
}

#[test]
fn a_stopped_state_of_no_known_outcome_comes_back() {
    let stopped = State {
        outcome: 255,
        index: 7,
        left: [1; MOST_REQUESTS],
        ..BLANK
    };
    assert_eq!(Wrong(Slip::None).tick(stopped), stopped);
    let running = State {
        outcome: RUNNING,
        ..stopped
    };
    assert_ne!(Wrong(Slip::None).tick(running).outcome, RUNNING);
}
