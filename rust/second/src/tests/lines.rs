//! The command lines and their answers.

use super::{a, b, f, requests, sporadic};
use crate::words::{digest, hex, DIGEST};
use crate::{answer, overload_list};

fn ask(command: &str, table: &[u8], rest: &str) -> String {
    answer(&format!("{command} hex:{} {rest}", hex(table)))
}

#[test]
fn questions_about_a_table() {
    assert_eq!(ask("read", &b(), ""), "table tasks=2 records=5");
    assert_eq!(
        ask("verdict", &b(), ""),
        "overloaded t=2 margin=-1 starts=1,0,0,0,0,0,0,0,0,0,0,0,0,0,0,0"
    );
    assert_eq!(ask("verdict", &a(), ""), "fits window=8 margin=0 at=2");
    let undecided = sporadic(&[(2, 65_535, 1)]);
    assert_eq!(ask("verdict", &undecided, ""), "undecided");
    assert_eq!(ask("window", &a(), ""), "window 8");
    assert_eq!(ask("window", &undecided, ""), "window none");
    assert_eq!(ask("demand", &a(), "0 5"), "demand 3");
    assert_eq!(ask("work", &a(), "0 1"), "work 5");
    assert_eq!(ask("margin", &b(), "2"), "margin -1");
    assert_eq!(answer("read hex:"), "refused 1 0");
    assert_eq!(ask("demand", &a(), "0 18446744073709551615"), "refused 7 0");
}

#[test]
fn responses() {
    assert_eq!(ask("response", &f(), "3 0"), "on-time value=14 rounds=4");
    let late = sporadic(&[(1, 2, 2), (2, 3, 9)]);
    assert_eq!(ask("response", &late, "1 0"), "late value=4 round=2");
    assert_eq!(
        ask("responses", &late, ""),
        "0.0:on-time/value=1/rounds=0 1.0:late/value=4/round=2"
    );
    assert_eq!(ask("responses", &a(), ""), "refused 8 2");
    assert_eq!(answer("responses hex:00"), "refused 1 0");
}

#[test]
fn overloads() {
    let whole = "00010000000000000100000000000000";
    assert_eq!(
        ask("overload", &b(), "20 2"),
        format!("written 16 eeee{whole}eeee")
    );
    assert_eq!(ask("overload", &b(), "20 5"), "refused 12 0");
    assert_eq!(ask("overload", &a(), "20 5"), "refused 13 0");
    assert_eq!(ask("overload-size", &b(), ""), "size 16");
    assert_eq!(ask("overload-size", &a(), ""), "refused 13 0");
    assert_eq!(answer("overload-size hex:00"), "refused 1 0");
    assert_eq!(ask("overload-list", &b(), ""), format!("list {whole}"));
    assert_eq!(ask("overload-list", &a(), ""), "refused 13 0");
}

#[test]
fn lists_and_replays() {
    let of_b = format!("hex:{}", hex(&overload_list(&b()).unwrap()));
    assert_eq!(ask("list", &b(), &of_b), "legal records=2");
    assert_eq!(ask("replay", &b(), &of_b), "miss tick=2 record=1");
    assert_eq!(ask("replay", &b(), "hex:"), "all-met tick=0");
    assert_eq!(ask("trace", &b(), "hex:00"), "refused 10 0");
}

#[test]
fn the_digest_and_traces() {
    assert_eq!(digest(DIGEST, b"a"), 0xaf63_dc4c_8601_ec8c);
    assert_eq!(digest(DIGEST, b"foobar"), 0x8594_4171_f739_67e8);
    let nothing = digest(DIGEST, &[0; 4]);
    assert_eq!(
        ask("trace", &b(), "hex:"),
        format!("trace {nothing:016x} all-met tick=0")
    );
    let of_b = overload_list(&b()).unwrap();
    let states: [[u8; 12]; 3] = [
        [0, 0, 0, 0, 2, 0, 0, 0, 1, 0, 0, 0],
        [1, 0, 0, 0, 1, 0, 0, 0, 1, 0, 0, 0],
        [2, 0, 0, 0, 0, 0, 0, 0, 1, 0, 0, 0],
    ];
    let three = digest(DIGEST, &states.concat());
    assert_eq!(
        ask("trace", &b(), &format!("hex:{}", hex(&of_b))),
        format!("trace {three:016x} miss tick=2 record=1")
    );
    let one = hex(&requests(&[(0, 0, 1)]));
    let table = sporadic(&[(1, 2, 2)]);
    let states = [
        0, 0, 0, 0, 1, 0, 0, 0, 1, 0, 0, 0, 1, 0, 0, 0, 2, 0, 0, 0, 0, 0, 0, 0,
    ];
    assert_eq!(
        ask("trace", &table, &format!("hex:{one}")),
        format!("trace {:016x} all-met tick=2", digest(DIGEST, &states))
    );
}

#[test]
fn lines_that_cannot_be_asked() {
    let bad = [
        "",
        "nothing",
        "read",
        "read 00",
        "read hex:0",
        "read hex:0g",
        "read hex:+1",
        "read hex:00 hex:00",
        "demand hex: 0",
        "demand hex: 0 -1",
        "demand hex: 0 +1",
        "demand hex: 0 1.5",
        "demand hex: 18446744073709551616 0",
        "overload hex: 16777217 0",
        "overload-size",
        "overload-size hex: 0",
        "list hex:",
        "replay hex: 00",
    ];
    for line in bad {
        assert!(answer(line).starts_with("error "), "{line}");
    }
    assert_eq!(answer("overload hex: 16777216 0"), "refused 1 0");
}
