//! Verdicts for people: the paragraph of one table, and the lines of several.
use crate::program::{fed, run};
use desk::{grouped, HORIZON, MOST_REQUESTS, MOST_TABLE_BYTES};

// A paragraph as one line.
pub fn judged(word: &str, status: i32) -> String {
    let said = run(&["judge", word]);
    assert_eq!((said.err.as_str(), said.status), ("", status), "{word}");
    assert!(said.out.lines().all(|line| line.len() <= 80), "{}", said.out);
    said.out.trim_end().replace('\n', " ")
}

#[test]
fn a_table_that_fits() {
    assert_eq!(
        judged("examples/A", 0),
        "examples/A: fits (1 task, 4 records). Every deadline is held in every legal request list, of any length, \
         under earliest deadline first. The closing window is 8 ticks: all tasks together bring at most 8 ticks of \
         work into it. The least margin up to there is 0, first at t = 2: requests that arrive and are due within 2 \
         ticks need at most 2 ticks."
    );
    let ends =
        "least margin up to there is 1, first at t = 1: no request can both arrive and be due within 1 tick.";
    assert!(judged("examples/F", 0).ends_with(ends));
}

#[test]
fn an_overloaded_table() {
    assert_eq!(
        judged("examples/B", 1),
        "examples/B: overloaded (2 tasks, 5 records). Requests that arrive and are due within 2 ticks can need 3 \
         ticks: 1 tick more than there is. No schedule whatever holds every deadline. A legal list of 2 requests shows \
         it: task 0 frame 1 arrives at 0 and needs 2 ticks by 2; task 1 frame 0 arrives at 0 and needs 1 tick by 2. \
         Replayed under earliest deadline first, task 1 frame 0 (record 1) misses its deadline at tick 2."
    );
    let more = judged("hex:0001020005000100", 1);
    assert!(more.contains("; and 1 more. Replayed"), "{more}");
}

// (1,130,1) and (1,1,2): more requests than the bench takes.
#[test]
fn an_overload_list_too_long_for_the_bench() {
    let text = judged("hex:0001010082000100 0101010001000200", 1);
    let more = format!("; and 256 more. That is longer than the bench takes, {MOST_REQUESTS} records");
    assert!(text.contains(&more), "{text}");
    let ends = "but under any schedule one of its requests that are due by tick 259 misses its deadline.";
    assert!(text.ends_with(ends), "{text}");
}

// (1,64,1) and (1,1,2): just as many as it takes.
#[test]
fn the_longest_overload_list_that_is_replayed() {
    let text = judged("hex:0001010040000100 0101010001000200", 1);
    let whole = format!("A legal list of {MOST_REQUESTS} requests shows it: ");
    assert!(text.contains(&whole), "{text}");
    let ends =
        "; and 124 more. Replayed under earliest deadline first, task 1 frame 0 (record 127) misses its \
        deadline at tick 127.";
    assert!(text.ends_with(ends), "{text}");
}

#[test]
fn an_undecided_table() {
    let text = judged("hex:0001e903ffffe803", 1);
    let far = grouped(HORIZON);
    let starts =
        format!("hex:0001e903ffffe803: undecided (1 task, 1 record). The desk looks at up to {far} ticks, ");
    assert!(text.starts_with(&starts), "{text}");
    assert!(
        text.ends_with("Make an E less or a P greater, and judge again."),
        "{text}"
    );
}

// Fourteen frames of E 5,000 may come within 14 ticks, and the two after them keep the load at 0.36.
#[test]
fn an_undecided_table_of_low_load() {
    let (heavy, light) = ([0, 3, 0x88, 0x13, 255, 255], [0, 3, 1, 0, 255, 255]);
    let mut table = [&heavy[..], &[1, 0]].concat().repeat(13);
    table.extend([&heavy[..], &[255, 255]].concat());
    table.extend([&light[..], &[255, 255]].concat().repeat(2));
    let text = fed(&["judge", "-"], &table).out.replace('\n', " ");
    let load =
        "The load may be full, above that, or close to it; or much work can come in a burst and is due late.";
    assert!(
        text.starts_with("standard input: undecided (1 task, 16 records). ") && text.contains(load),
        "{text}"
    );
}

#[test]
fn a_table_from_standard_input() {
    let said = fed(&["judge", "-"], &[0, 1, 1, 0, 1, 0, 1, 0]);
    assert!(
        said.out.starts_with("standard input: fits (1 task, 1 record). "),
        "{}",
        said.out
    );
}

#[test]
fn several_tables_and_a_total() {
    let said = run(&[
        "judge",
        "examples/A",
        "examples/Q",
        "examples/B",
        "examples/65-records",
    ]);
    let wanted = format!(
        "examples/A: fits, window 8, least margin 0 at t = 2\n\
         examples/B: overloaded at t = 2 by 1 tick\n\
         examples/65-records: refused 1: the table's length is 0, above {MOST_TABLE_BYTES} bytes, or not a multiple of \
         8\n4 tables: 1 fit, 1 overloaded, 0 undecided, 1 refused, 1 could not be read\n"
    );
    assert_eq!((said.out, said.status), (wanted, 3));
    assert!(
        said.err
            .starts_with("limpidorsa: examples/Q: there is no such file; "),
        "{}",
        said.err
    );
    assert_eq!(
        said.err.lines().count(),
        1,
        "no progress line where standard error is no terminal"
    );
}

// Takes seconds: two of the tables have P 1, and no window closes.
#[test]
fn all_the_examples() {
    let folder = concat!(env!("CARGO_MANIFEST_DIR"), "/../../examples");
    let names = std::fs::read_dir(folder)
        .unwrap()
        .map(|entry| entry.unwrap().path().into_os_string());
    let mut names: Vec<String> = names.map(|name| name.into_string().unwrap()).collect();
    names.sort();
    let words: Vec<&str> = ["judge"]
        .into_iter()
        .chain(names.iter().map(String::as_str))
        .collect();
    let said = run(&words);
    assert_eq!((said.err.as_str(), said.status), ("", 2));
    let lines: Vec<&str> = said.out.lines().collect();
    assert_eq!(lines.len(), names.len() + 1);
    let far = grouped(HORIZON);
    assert!(said
        .out
        .contains(&format!("/limit: overloaded at t = {far} by 2 ticks\n")));
    assert!(said
        .out
        .contains(&format!("/undecided: undecided up to {far} ticks\n")));
    assert_eq!(
        lines.last(),
        Some(&"13 tables: 7 fit, 4 overloaded, 1 undecided, 1 refused")
    );
}
