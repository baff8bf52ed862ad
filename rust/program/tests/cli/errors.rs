//! Files that cannot be read and answers that cannot be written: exit status 3, and a complaint that names what is
//! wrong and what to do.
use crate::program::{command, expect_error, fed, run};
use std::ffi::OsStr;
use std::os::unix::ffi::OsStrExt;

#[test]
fn files_that_cannot_be_read() {
    let what = "name another file, or write hex:BYTES";
    expect_error(
        &["read", "examples/Q"],
        &["limpidorsa: examples/Q: there is no such file; ", what],
    );
    expect_error(
        &["list", "examples/A", "lists/Q"],
        &["lists/Q: there is no such file"],
    );
    expect_error(
        &["read", "examples"],
        &["examples: this is a directory; name the files in it"],
    );
    expect_error(
        &["read", "examples/A/Q"],
        &["examples/A/Q: it cannot be read", "Not a directory"],
    );
    expect_error(&["read", "a\nb"], &["a\\nb: there is no such file"]);
    expect_error(&["judge", "examples/Q"], &["examples/Q: there is no such file"]);
    expect_error(&["judge", ""], &["limpidorsa: a file's name is empty; ", what]);
    expect_error(
        &["steps", "examples/A", "lists/Q"],
        &["lists/Q: there is no such file"],
    );
}

#[test]
fn a_name_that_is_not_text() {
    let mut call = command(&["read"]);
    let output = call.arg(OsStr::from_bytes(b"ex\xff")).output().unwrap();
    assert_eq!(output.status.code(), Some(3));
    let err = String::from_utf8(output.stderr).unwrap();
    assert!(
        err.contains("this word is not UTF-8; give such a file by standard input"),
        "{err}"
    );
}

#[test]
fn standard_input_serves_one_argument() {
    let twice =
        ["limpidorsa: -: standard input is read once, and was taken; name a file, or write hex:BYTES"];
    expect_error(&["list", "-", "-"], &twice);
    expect_error(&["steps", "-", "-"], &twice);
}

// A longer table is refused by its length, whatever it holds, and is not read to its end.
#[test]
fn input_without_end_is_refused() {
    let said = run(&["read", "/dev/zero"]);
    assert_eq!((said.out.as_str(), said.status), ("refused 1 0\n", 2));
    let said = run(&["list", "examples/A", "/dev/zero"]);
    assert_eq!((said.out.as_str(), said.status), ("refused 10 0\n", 2));
    let said = fed(&["judge", "-"], &vec![0; 3 << 20]);
    assert_eq!(said.status, 2);
    assert!(
        said.out
            .replace('\n', " ")
            .contains("The table has 1,048,576 bytes or more."),
        "{}",
        said.out
    );
}

#[test]
fn an_answer_that_cannot_be_written() {
    let full = std::fs::OpenOptions::new().write(true).open("/dev/full").unwrap();
    let output = command(&["read", "examples/A"]).stdout(full).output().unwrap();
    assert_eq!(output.status.code(), Some(3));
    assert!(String::from_utf8(output.stderr)
        .unwrap()
        .contains("the answer could not be written (No space left"));
}

#[test]
fn a_reader_that_goes_away_is_no_error() {
    for words in [
        &["help"][..],
        &["judge", "examples/A", "examples/B"],
        &["steps", "examples/A", "lists/A"],
    ] {
        let (reader, writer) = std::io::pipe().unwrap();
        drop(reader);
        let output = command(words).stdout(writer).output().unwrap();
        assert_eq!(output.stderr, b"", "{words:?}");
        assert_eq!(output.status.code(), Some(0), "{words:?}");
    }
}
