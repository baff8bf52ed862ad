//! Questions on standard input: one answer line for each line, whatever it holds.
use crate::program::{command, fed};
use std::io::{BufRead, BufReader, Write};

// The answer lines and the exit status.
fn batch(input: &[u8]) -> (Vec<String>, i32) {
    let said = fed(&["batch"], input);
    assert_eq!(said.err, "");
    (said.out.lines().map(String::from).collect(), said.status)
}

#[test]
fn bad_lines_in_between_stop_nothing() {
    let lines = b"read examples/A\n\
        \n\
        verdict\n\
        read \"hex:00 01 01 00 01 00 01 00\"\n\
        read 'hex:0001\n\
        read -\n\
        judge examples/A\n\
        \xff\xfe\n\
        read examples/Q\n\
        replay examples/B lists/B";
    let (answers, status) = batch(lines);
    let wanted = [
        "table tasks=1 records=4",
        "error the line is empty; write a command and its words",
        "error verdict: 0 words given; it is 'verdict TABLE'",
        "table tasks=1 records=1",
        "error a quote ' is opened and not closed; close it",
        "error -: standard input holds the batch itself; name a file, or write hex:BYTES",
        "error judge: this command is not for a batch; give it to limpidorsa itself",
        "error the line is not text: byte 1 is not UTF-8; write the line in UTF-8",
        "error examples/Q: there is no such file; name another file, or write hex:BYTES",
        "miss tick=2 record=1",
    ];
    assert_eq!(answers, wanted);
    assert_eq!(status, 3);
}

#[test]
fn commands_for_people_are_not_asked_in_a_batch() {
    let commands = [
        "judge",
        "steps",
        "explain",
        "help",
        "-h",
        "--help",
        "version",
        "--version",
        "batch",
    ];
    let (answers, status) = batch(commands.join("\n").as_bytes());
    assert_eq!((answers.len(), status), (commands.len(), 3));
    for (answer, command) in answers.iter().zip(commands) {
        assert!(
            answer.starts_with(&format!("error {command}: this command is not for a batch")),
            "{answer}"
        );
    }
}

#[test]
fn the_exit_status_is_the_greatest() {
    assert_eq!(batch(b"").1, 0);
    assert_eq!(batch(b"verdict examples/A\n").1, 0);
    assert_eq!(
        batch(b"verdict examples/A\nverdict examples/B\nverdict examples/A\n").1,
        1
    );
    assert_eq!(batch(b"verdict examples/65-records\nverdict examples/B\n").1, 2);
    assert_eq!(
        batch(b"verdict examples/65-records\nverdict\nverdict examples/B\n").1,
        3
    );
}

#[test]
fn lines_end_as_on_other_systems_too() {
    assert_eq!(
        batch(b"\tread   examples/A \r\nwindow examples/A\r\n").0,
        ["table tasks=1 records=4", "window 8"]
    );
}

#[test]
fn control_signs_stay_on_one_line() {
    assert_eq!(batch(b"a\x0bb\x1b[2J\0c\n").0.len(), 1);
    assert_eq!(
        batch(b"read 'a\rb'\n").0,
        ["error a\\rb: there is no such file; name another file, or write hex:BYTES"]
    );
}

#[test]
fn another_program_can_talk_to_it() {
    let mut child = command(&["batch"]).spawn().unwrap();
    let mut to = child.stdin.take().unwrap();
    let mut from = BufReader::new(child.stdout.take().unwrap());
    for (line, answer) in [
        ("margin examples/B 2\n", "margin -1\n"),
        ("window examples/A\n", "window 8\n"),
    ] {
        to.write_all(line.as_bytes()).unwrap();
        let mut got = String::new();
        from.read_line(&mut got).unwrap();
        assert_eq!(got, answer);
    }
    drop(to);
    assert_eq!(child.wait().unwrap().code(), Some(0));
}
