//! The questions about overload lists and request lists, on document 01's numbers.
use crate::program::{expect, run};

#[test]
fn k4_the_size_of_the_overload_list() {
    expect(&["overload-size", "examples/B"], "size 16", 0);
    expect(&["overload-size", "examples/K7-2-5-10"], "size 32", 0);
    expect(&["overload-size", "examples/two"], "size 16", 0);
    expect(&["overload-size", "examples/A"], "refused 13 0", 2);
    expect(&["overload-size", "hex:0001e903ffffe803"], "refused 13 0", 2);
    expect(&["overload-size", "examples/65-records"], "refused 1 0", 2);
    expect(&["overload-size", "hex:0001010005000000"], "refused 5 0", 2);
}

// (1,130,1) and (1,1,2): more requests than the bench takes, and the buffer has room for just so many.
#[test]
fn the_size_is_what_is_written() {
    let long = "hex:0001010082000100 0101010001000200";
    expect(&["overload-size", long], "size 2080", 0);
    let just = run(&["overload", long, "2080", "0"]);
    assert!(
        just.out.starts_with("written 2080 ") && just.status == 0,
        "{}",
        just.out
    );
    expect(&["overload", long, "2079", "0"], "refused 12 0", 2);
    let list = run(&["overload-list", long]);
    assert_eq!(list.out.len(), "list \n".len() + 2 * 2080);
}

#[test]
fn k4_the_overload_list_in_a_buffer() {
    expect(
        &["overload", "examples/B", "20", "2"],
        "written 16 eeee00010000000000000100000000000000eeee",
        0,
    );
    expect(&["overload", "examples/B", "20", "5"], "refused 12 0", 2);
    expect(
        &["overload", "examples/B", "16", "0"],
        "written 16 00010000000000000100000000000000",
        0,
    );
    expect(&["overload", "examples/B", "0", "0"], "refused 12 0", 2);
    expect(
        &["overload", "examples/B", "20", "18446744073709551615"],
        "refused 12 0",
        2,
    );
    expect(&["overload", "examples/A", "20", "99"], "refused 13 0", 2);
    let long = run(&["overload", "examples/B", "16777216", "16777200"]);
    assert_eq!(
        (long.status, long.out.len()),
        (0, "written 16 \n".len() + 2 * 16777216)
    );
    assert!(long.out.ends_with("eeee00010000000000000100000000000000\n"));
}

#[test]
fn the_overload_list_alone() {
    expect(
        &["overload-list", "examples/B"],
        "list 00010000000000000100000000000000",
        0,
    );
    let four = "list 0000000000000000010000000000000000010000020000000002000003000000";
    expect(&["overload-list", "examples/K7-2-5-10"], four, 0);
    expect(&["overload-list", "examples/A"], "refused 13 0", 2);
    expect(&["overload-list", "hex:00"], "refused 1 0", 2);
}

#[test]
fn k5_lists_and_replays() {
    expect(&["list", "examples/B", "lists/B"], "legal records=2", 0);
    expect(&["replay", "examples/B", "lists/B"], "miss tick=2 record=1", 1);
    expect(
        &["list", "examples/K7-2-5-10", "lists/K7-2-5-10"],
        "legal records=4",
        0,
    );
    expect(
        &["replay", "examples/K7-2-5-10", "lists/K7-2-5-10"],
        "miss tick=5 record=1",
        1,
    );
    expect(&["list", "examples/A", "lists/A"], "legal records=7", 0);
    expect(&["replay", "examples/A", "lists/A"], "all-met tick=31", 0);
    expect(&["replay", "examples/F", "lists/F"], "all-met tick=31", 0);
    expect(&["replay", "examples/A", "hex:"], "all-met tick=0", 0);
    expect(&["list", "examples/A", "lists/B"], "refused 10 1", 2);
    expect(
        &[
            "replay",
            "examples/A",
            "hex:00 01 00 00 00 00 00 00 00 02 00 00 01 00 00 00",
        ],
        "refused 11 1",
        2,
    );
    expect(&["replay", "hex:00", "hex:00"], "refused 1 0", 2);
}

// These digests were worked out apart from the program, from the states written down: tick 0 alone, and (0: 2, 1),
// (1: 1, 1), (2: 0, 1).
#[test]
fn traces() {
    expect(
        &["trace", "examples/B", "hex:"],
        "trace 4d25767f9dce13f5 all-met tick=0",
        0,
    );
    expect(
        &["trace", "examples/B", "lists/B"],
        "trace 5124a38bf6732e64 miss tick=2 record=1",
        1,
    );
    expect(&["trace", "examples/A", "lists/B"], "refused 10 1", 2);
}
