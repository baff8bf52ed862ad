//! The commands for people besides judge: steps, explain, help and version.
use crate::program::{expect, run};
use desk::{grouped, HORIZON, LAST_ARRIVAL, LAST_REFUSAL, LAST_TICK};
use limpidorsa::lines::hex;
use limpidorsa::questions::QUESTIONS;
use limpidorsa::split::words;

#[test]
fn steps_of_a_list() {
    let text = "ticks 0 to 1     task 0 frame 1 (record 0), 2 units, done\n\
        ticks 2 to 6     task 0 frame 2 (record 1), 5 units, done\n\
        tick 7           task 0 frame 3 (record 2), 1 unit, done\n\
        tick 8           idle\n\
        tick 9           task 0 frame 0 (record 3), 1 unit, done\n\
        ticks 10 to 11   idle\n\
        ticks 12 to 13   task 0 frame 1 (record 4), 2 units, done\n\
        ticks 14 to 18   task 0 frame 2 (record 5), 5 units, done\n\
        ticks 19 to 29   idle\n\
        tick 30          task 0 frame 3 (record 6), 1 unit, done\n\
        tick 31          all met";
    expect(&["steps", "examples/A", "lists/A"], text, 0);
    let text = "ticks 0 to 1   task 0 frame 0 (record 0), 2 units, done\n\
        tick 2         task 1 frame 0 (record 1), 1 unit, 1 left\n\
        ticks 3 to 4   task 0 frame 2 (record 3), 2 units, done\n\
        tick 5         miss: task 1 frame 0 (record 1) was due at 5 and has 1 unit left";
    expect(&["steps", "examples/K7-2-5-10", "lists/K7-2-5-10"], text, 1);
    expect(&["steps", "examples/A", "hex:"], "tick 0   all met", 0);
}

// The last arrival, and all of E 65,535 after it.
#[test]
fn steps_of_the_longest_run() {
    let [before, arrival, last, end] =
        [LAST_ARRIVAL - 1, LAST_ARRIVAL, LAST_TICK - 1, LAST_TICK].map(grouped);
    let text = format!(
        "ticks 0 to {before}         idle\n\
         ticks {arrival} to {last}   task 0 frame 0 (record 0), 65,535 units, done\n\
         tick {end}              all met"
    );
    let list = format!("hex:00000000 {}", hex(&LAST_ARRIVAL.to_le_bytes()));
    expect(&["steps", "examples/longest", &list], &text, 0);
}

// Each example is pasted: the words of its command are asked, and the answer below it must be the one given.
#[test]
fn every_explained_example_gives_its_answer() {
    for number in 1..=LAST_REFUSAL {
        let said = run(&["explain", &number.to_string()]);
        assert_eq!((said.err.as_str(), said.status), ("", 0));
        assert!(said.out.starts_with(&format!("Refusal {number} is given when ")));
        let lines: Vec<&str> = said.out.lines().collect();
        let [.., command, answer] = lines[..] else {
            panic!("no example: {}", said.out)
        };
        let pasted = words(command.trim().strip_prefix("limpidorsa ").expect("a command")).unwrap();
        let pasted: Vec<&str> = pasted.iter().map(String::as_str).collect();
        assert!(answer.trim().starts_with(&format!("refused {number} ")));
        expect(&pasted, answer.trim(), 2);
    }
}

#[test]
fn help_and_version() {
    let said = run(&["help"]);
    assert_eq!((said.err.as_str(), said.status), ("", 0));
    for question in &QUESTIONS {
        let rows = said.out.lines();
        let mut rows = rows.filter(|row| row.starts_with(&format!("  {}  ", question.usage())));
        assert!(
            rows.next().is_some_and(|row| row.ends_with(question.example)),
            "{}",
            question.usage()
        );
    }
    for word in [
        "judge FILE..",
        "steps TABLE LIST",
        "explain N",
        "batch ",
        "Exit status: 0",
        "hex:",
        "--version",
        &format!("(1 to {LAST_REFUSAL})"),
        &format!("up to {HORIZON}."),
    ] {
        assert!(said.out.contains(word), "{word}");
    }
    assert!(said.out.lines().all(|line| line.len() <= 100), "{}", said.out);
    for words in [&["-h"][..], &["--help"], &["verdict", "--help"]] {
        assert_eq!(run(words), said, "{words:?}");
    }
    expect(
        &["--version"],
        concat!("limpidorsa ", env!("CARGO_PKG_VERSION")),
        0,
    );
    expect(&["version"], concat!("limpidorsa ", env!("CARGO_PKG_VERSION")), 0);
}
