//! Words that are no command, no number or no bytes: exit status 3, and a complaint that says what to do.
use crate::program::expect_error;
use desk::LAST_REFUSAL;

#[test]
fn hex_that_is_not_bytes() {
    expect_error(
        &["read", "hex:00 0g"],
        &["character 5 after 'hex:' is 'g'", "two hex digits for each byte"],
    );
    expect_error(
        &["read", "hex:00 0"],
        &["the digit at character 4 after 'hex:' has no second one"],
    );
}

#[test]
fn numbers_that_are_not() {
    for word in [
        "five",
        "-5",
        "+5",
        "0x5",
        "",
        "5 ",
        "1.0",
        "18446744073709551616",
        "99999999999999999999999",
    ] {
        let wanted = format!("demand: T is '{word}'; write a decimal number from 0 to 18446744073709551615");
        expect_error(&["demand", "examples/A", "0", word], &[&wanted]);
    }
    expect_error(&["response", "examples/F", "x", "0"], &["response: TASK is 'x'"]);
    expect_error(
        &["overload", "examples/B", "20", "y"],
        &["overload: PLACE is 'y'"],
    );
}

#[test]
fn a_buffer_that_is_too_long() {
    let what = [
        "BUFLEN is 16777217; at most 16777216",
        "any list goes into 8,388,608 bytes",
    ];
    expect_error(&["overload", "examples/B", "16777217", "0"], &what);
    expect_error(
        &["overload", "examples/B", "18446744073709551615", "0"],
        &["BUFLEN is 18446744073709551615"],
    );
}

#[test]
fn commands_that_are_not_and_words_too_few_or_many() {
    expect_error(&[], &["no command was given", "limpidorsa help"]);
    expect_error(
        &["verdicts", "x"],
        &["limpidorsa: verdicts: there is no such command; see 'limpidorsa help'"],
    );
    expect_error(&[""], &["there is no such command"]);
    expect_error(&["overload-replay", "examples/B"], &["there is no such command"]);
    expect_error(
        &["overload-size"],
        &["overload-size: 0 words given; it is 'overload-size TABLE'"],
    );
    expect_error(&["read"], &["read: 0 words given; it is 'read TABLE'"]);
    expect_error(
        &["demand", "examples/A", "0"],
        &["demand: 2 words given; it is 'demand TABLE TASK T'"],
    );
    expect_error(
        &["trace", "examples/A"],
        &["trace: 1 word given; it is 'trace TABLE LIST'"],
    );
    expect_error(
        &["read", "hex:00", "03"],
        &["it is 'read TABLE'; bytes with blanks go between quotes"],
    );
    expect_error(&["steps", "examples/A"], &["it is 'steps TABLE LIST'"]);
    expect_error(&["batch", "x"], &["batch: 1 word given; it is 'batch'"]);
    expect_error(&["judge"], &["judge: no file is named; it is 'judge FILE..'"]);
    expect_error(&["explain"], &["explain: 0 words given; it is 'explain N'"]);
}

#[test]
fn explain_takes_the_numbers_that_there_are() {
    let beyond = (LAST_REFUSAL + 1).to_string();
    for word in ["0", &beyond, "x", "-1", "01", "256"] {
        let wanted = format!("explain: N is '{word}'; write a refusal number, 1 to {LAST_REFUSAL}");
        expect_error(&["explain", word], &[&wanted]);
    }
}
