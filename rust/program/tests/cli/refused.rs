//! Refusals for people: judge and steps say what the number means and what stands there.
use crate::judge::judged;
use crate::program::{expect, run};
use desk::{grouped, MOST_LIST_BYTES, MOST_TABLE_BYTES};

#[test]
fn a_table_of_a_wrong_length() {
    assert_eq!(
        judged("examples/65-records", 2),
        format!(
            "examples/65-records: refused 1: the table's length is 0, above {MOST_TABLE_BYTES} bytes, or not a \
             multiple of 8. The table has 520 bytes. 'limpidorsa explain 1' has an example."
        )
    );
}

#[test]
fn a_record_that_is_wrong_by_itself() {
    assert_eq!(
        judged("hex:0003010002000300 0003000002000200", 2),
        "hex:0003010002000300 0003000002000200: refused 5 at record 1: E, D or P is zero. Record 1 of the table \
         (counted from 0) begins at byte 8 and is 00 03 00 00 02 00 02 00: task 0, kind 3, E 0, D 2, P 2. 'limpidorsa \
         explain 5' has an example."
    );
    let first = judged("hex:0101010005000500", 2);
    assert!(
        first.contains(": task 1, kind 1, E 1, D 5, P 5. 'limpidorsa"),
        "{first}"
    );
    // The task before, of which D is not asked, is no reason.
    let second = judged("hex:0001010004000500 0102010004000500", 2);
    assert!(
        second.contains("refused 6 at record 1: ") && !second.contains("Before it"),
        "{second}"
    );
}

// Such a record looks good alone: the one before it shows what is wrong.
#[test]
fn a_record_that_is_wrong_after_another() {
    for (table, number, before) in [
        (
            "hex:0001010005000500 0201010005000500",
            2,
            "task 0, kind 1, E 1, D 5, P 5",
        ),
        (
            "hex:0003010005000600 0002010005000500",
            3,
            "task 0, kind 3, E 1, D 5, P 6",
        ),
        (
            "hex:0002010005000500 0002010006000600",
            6,
            "task 0, kind 2, E 1, D 5, P 5",
        ),
    ] {
        let text = judged(table, 2);
        let ends = format!(" Before it, record 0: {before}. 'limpidorsa explain {number}' has an example.");
        assert!(text.ends_with(&ends), "{text}");
    }
}

// The words of a refused `steps`, as one line.
fn refused_steps(table: &str, list: &str) -> String {
    let said = run(&["steps", table, list]);
    assert_eq!((said.err.as_str(), said.status), ("", 2), "{table} {list}");
    said.out.trim_end().replace('\n', " ")
}

#[test]
fn steps_of_a_refused_list() {
    let text = "refused 11 1: a task's next request has the wrong frame, or comes sooner than P\n\
        of the earlier frame after it. Record 1 of the list (counted from 0) begins at\n\
        byte 8 and is 00 02 00 00 01 00 00 00: task 0, frame 2, arrival 1. Before it,\n\
        record 0: task 0, frame 1, arrival 0. 'limpidorsa explain 11' has an example.";
    expect(
        &["steps", "examples/A", "hex:0001000000000000 0002000001000000"],
        text,
        2,
    );
    // The task's own request before it, with another task's between them.
    let between = "hex:0001000000000000 0100000000000000 0003000009000000";
    let text = refused_steps("examples/B", between);
    assert!(
        text.contains(" Before it, record 0: task 0, frame 1, arrival 0."),
        "{text}"
    );
    let text = refused_steps("examples/B", "hex:0001000005000000 0100000004000000");
    assert!(text.starts_with("refused 10 1: "), "{text}");
    assert!(
        text.contains(" Before it, record 0: task 0, frame 1, arrival 5."),
        "{text}"
    );
}

#[test]
fn steps_of_a_list_of_a_wrong_length_and_of_a_refused_table() {
    let one_more = MOST_LIST_BYTES + 8;
    let text = refused_steps("examples/A", &format!("hex:{}", "00".repeat(one_more)));
    let length = format!(" The list has {} bytes. 'limpidorsa", grouped(one_more as u64));
    assert!(text.contains(&length), "{text}");
    let text = refused_steps("examples/A", "hex:0001000000000000 00");
    assert!(text.contains(" The list has 9 bytes. 'limpidorsa"), "{text}");
    let text = refused_steps("hex:0001000005000500", "hex:");
    assert!(
        text.starts_with("refused 5 0: E, D or P is zero. Record 0 of the table "),
        "{text}"
    );
}
