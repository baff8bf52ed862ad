//! Every question about a table alone on document 01's numbers: its answer line and its exit status.
use crate::program::{expect, fed};
use desk::HORIZON;

const ONE: &str = "hex:0001010001000100";

#[test]
fn read() {
    expect(&["read", "examples/B"], "table tasks=2 records=5", 0);
    expect(&["read", "examples/64-records"], "table tasks=16 records=64", 0);
    expect(&["read", "examples/65-records"], "refused 1 0", 2);
    expect(&["read", "hex:"], "refused 1 0", 2);
    expect(
        &["read", "hex:00 03 01 00 02 00 03 00 00 03 00 00 02 00 02 00"],
        "refused 5 1",
        2,
    );
}

#[test]
fn k1_demand_of_a() {
    for (t, demand) in [(1, 0), (2, 2), (5, 3), (8, 6), (9, 7), (10, 8), (11, 9), (14, 11)] {
        expect(
            &["demand", "examples/A", "0", &t.to_string()],
            &format!("demand {demand}"),
            0,
        );
    }
}

#[test]
fn k2_to_k4_and_k6_verdicts() {
    expect(&["verdict", "examples/A"], "fits window=8 margin=0 at=2", 0);
    expect(
        &["verdict", "examples/A-1-4-12"],
        "fits window=10 margin=0 at=2",
        0,
    );
    let b = "overloaded t=2 margin=-1 starts=1,0,0,0,0,0,0,0,0,0,0,0,0,0,0,0";
    expect(&["verdict", "examples/B"], b, 1);
    expect(&["verdict", "examples/one"], "fits window=1 margin=0 at=1", 0);
    let two = "overloaded t=1 margin=-1 starts=0,0,0,0,0,0,0,0,0,0,0,0,0,0,0,0";
    expect(&["verdict", "examples/two"], two, 1);
    let four = "overloaded t=5 margin=-1 starts=0,0,0,0,0,0,0,0,0,0,0,0,0,0,0,0";
    expect(&["verdict", "examples/K7-2-5-10"], four, 1);
    expect(
        &["verdict", "examples/longest"],
        "fits window=65535 margin=0 at=65535",
        0,
    );
    expect(&["verdict", "examples/65-records"], "refused 1 0", 2);
}

// (1001,65535,1000): above full load, and the first deadlines come too late to show it.
#[test]
fn undecided_is_bad_news() {
    expect(&["verdict", "hex:0001e903ffffe803"], "undecided", 1);
}

#[test]
fn k7_misfits_in_between_count() {
    expect(&["demand", "examples/K7", "0", "5"], "demand 4", 0);
}

#[test]
fn k8_and_k9_responses_of_f() {
    for (task, frame, line) in [
        ("0", "0", "on-time value=1 rounds=0"),
        ("1", "0", "on-time value=3 rounds=1"),
        ("2", "0", "on-time value=8 rounds=3"),
        ("3", "0", "on-time value=14 rounds=4"),
        ("4", "0", "on-time value=32 rounds=6"),
        ("3", "1", "on-time value=9 rounds=2"),
    ] {
        expect(&["response", "examples/F", task, frame], line, 0);
    }
    expect(&["response", "examples/F", "5", "0"], "refused 9 0", 2);
    expect(&["response", "examples/A", "0", "0"], "refused 8 2", 2);
    // (2,5,5) and then (3,4,9): 3, 5, so late at the first round.
    expect(
        &["response", "hex:0001020005000500 0101030004000900", "1", "0"],
        "late value=5 round=1",
        1,
    );
}

#[test]
fn every_response_on_one_line() {
    let f = "0.0:on-time/value=1/rounds=0 1.0:on-time/value=3/rounds=1 2.0:on-time/value=8/rounds=3 \
             2.1:on-time/value=5/rounds=2 3.0:on-time/value=14/rounds=4 3.1:on-time/value=9/rounds=2 \
             4.0:on-time/value=32/rounds=6 4.1:on-time/value=18/rounds=3";
    expect(&["responses", "examples/F"], f, 0);
    let late = "0.0:on-time/value=2/rounds=0 1.0:late/value=5/round=1";
    expect(&["responses", "hex:0001020005000500 0101030004000900"], late, 1);
    expect(&["responses", "examples/A"], "refused 8 2", 2);
    expect(&["responses", "hex:00"], "refused 1 0", 2);
}

#[test]
fn window_work_and_margin() {
    expect(&["window", "examples/A"], "window 8", 0);
    expect(&["window", "examples/two"], "window none", 0);
    expect(&["work", "examples/A", "0", "2"], "work 5", 0);
    expect(&["work", "examples/A", "1", "2"], "refused 9 0", 2);
    expect(&["margin", "examples/B", "2"], "margin -1", 0);
    let [last, beyond] = [HORIZON, HORIZON + 1].map(|t| t.to_string());
    expect(&["margin", ONE, &last], "margin 0", 0);
    expect(&["margin", ONE, &beyond], "refused 7 0", 2);
    expect(&["demand", ONE, "0", &last], &format!("demand {last}"), 0);
    expect(&["work", ONE, "0", &beyond], "refused 7 0", 2);
    expect(&["demand", ONE, "1", &beyond], "refused 9 0", 2);
    expect(&["margin", ONE, "18446744073709551615"], "refused 7 0", 2);
}

#[test]
fn bytes_from_standard_input() {
    let one = [0, 1, 1, 0, 1, 0, 1, 0];
    let said = fed(&["verdict", "-"], &one);
    assert_eq!(
        (said.out.as_str(), said.status),
        ("fits window=1 margin=0 at=1\n", 0)
    );
    let said = fed(&["list", ONE, "-"], &[0; 8]);
    assert_eq!((said.out.as_str(), said.status), ("legal records=1\n", 0));
    let said = fed(&["list", "-", "hex:"], &one);
    assert_eq!((said.out.as_str(), said.status), ("legal records=0\n", 0));
}
