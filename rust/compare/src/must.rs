//! What a run must meet: where it does not, its counts say too little.
use crate::counts::Section::{Compared, Endings, Lines, Questions, Refusals, Responses, Verdicts};
use crate::counts::{Counts, Section};
use desk::LAST_REFUSAL;
use limpidorsa::questions::QUESTIONS;
use std::sync::LazyLock;

// The refusals' numbers, with a space before the short ones, so that they stand in their order.
pub static NUMBERS: LazyLock<Vec<String>> =
    LazyLock::new(|| (1..=LAST_REFUSAL).map(|number| format!("{number:>2}")).collect());
pub const VERDICTS: [&str; 3] = ["overloaded", "fits", "undecided"];
pub const RESPONSES: [&str; 2] = ["on time", "late"];
pub const ENDINGS: [&str; 2] = ["miss", "all met"];

// What is met only where a table is of a sort, and so counted by itself.
pub const AT_LAST_T: &str = "verdicts overloaded at the last t";
pub const NO_WINDOW: &str = "windows, none";
pub const LONG_LIST: &str = "overload lists longer than the bench takes";
pub const SIZES: &str = "sizes of overload lists";

// The questions of the command line that the program answers by several calls, and what is asked by a call alone.
const BY_SEVERAL: [&str; 3] = ["responses", "overload-list", "trace"];
const BY_CALL_ALONE: [&str; 1] = ["load"];

// The functions of the library that answer a question.
fn calls() -> impl Iterator<Item = &'static str> {
    let asked = QUESTIONS.iter().map(|question| question.name);
    asked
        .filter(|name| !BY_SEVERAL.contains(name))
        .chain(BY_CALL_ALONE)
}

// What every run must meet, and how one of them is called.
fn must() -> [(Section, &'static str, Vec<&'static str>); 7] {
    let lines = QUESTIONS.iter().map(|question| question.name).collect();
    [
        (Lines, "line of", lines),
        (Questions, "call of", calls().collect()),
        (Compared, "any", vec![AT_LAST_T, NO_WINDOW, LONG_LIST, SIZES]),
        (Refusals, "refusal", NUMBERS.iter().map(String::as_str).collect()),
        (Verdicts, "verdict", VERDICTS.to_vec()),
        (Responses, "response", RESPONSES.to_vec()),
        (Endings, "ending", ENDINGS.to_vec()),
    ]
}

/// What a run must meet and this one did not: then the counts say too little.
pub fn never_met(counts: &Counts) -> Vec<String> {
    let mut never: Vec<String> = Vec::new();
    for (section, what, names) in must() {
        let missing = names.iter().filter(|name| counts.of(section, name) == 0);
        never.extend(missing.map(|name| format!("{what} {}", name.trim())));
    }
    never
}

#[cfg(test)]
mod tests {
    use super::*;

    #[test]
    fn empty_counts_have_met_nothing() {
        let asked = calls().count() + QUESTIONS.len();
        let met = 4 + usize::from(LAST_REFUSAL) + 3 + 2 + 2;
        assert_eq!(never_met(&Counts::default()).len(), asked + met);
    }

    #[test]
    fn a_run_that_never_meets_a_question_says_so() {
        let mut counts = Counts::default();
        for name in [
            "call of overload-size",
            "line of overload-size",
            "any sizes of overload lists",
        ] {
            assert!(never_met(&counts).contains(&name.to_string()), "{name}");
        }
        counts.add(Questions, "overload-size", 1);
        counts.add(Lines, "overload-size", 1);
        counts.add(Compared, SIZES, 1);
        assert!(never_met(&counts).iter().all(|name| !name.contains("size")));
    }
}
