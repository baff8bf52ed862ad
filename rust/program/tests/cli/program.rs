//! Runs the program.
use std::io::Write;
use std::process::{Command, Output, Stdio};

/// What a call said, and its exit status.
#[derive(Debug, PartialEq, Eq)]
pub struct Said {
    pub out: String,
    pub err: String,
    pub status: i32,
}

/// The program with its words, at the top of the repository, where examples/ is.
pub fn command(words: &[&str]) -> Command {
    let mut command = Command::new(env!("CARGO_BIN_EXE_limpidorsa"));
    command
        .args(words)
        .current_dir(concat!(env!("CARGO_MANIFEST_DIR"), "/../.."));
    command
        .stdin(Stdio::piped())
        .stdout(Stdio::piped())
        .stderr(Stdio::piped());
    command
}

/// Runs the program with nothing on standard input.
pub fn run(words: &[&str]) -> Said {
    fed(words, b"")
}

/// Runs the program with these bytes on standard input.
pub fn fed(words: &[&str], input: &[u8]) -> Said {
    let mut child = command(words).spawn().expect("the program starts");
    let mut to = child.stdin.take().expect("standard input is a pipe");
    let input = input.to_vec();
    // In a thread of its own, so that a long answer and a long input cannot wait for each other. A program that does
    // not read its input closes the pipe, which is its right.
    let feeder = std::thread::spawn(move || {
        let _ = to.write_all(&input);
    });
    let output = child.wait_with_output().expect("the program ends");
    feeder.join().expect("the input is written");
    said(output)
}

fn said(output: Output) -> Said {
    Said {
        out: String::from_utf8(output.stdout).expect("the answer is text"),
        err: String::from_utf8(output.stderr).expect("the complaint is text"),
        status: output.status.code().expect("the program ends by itself"),
    }
}

/// Demands one answer line, nothing on standard error, and the exit status.
pub fn expect(words: &[&str], line: &str, status: i32) {
    let wanted = Said {
        out: format!("{line}\n"),
        err: String::new(),
        status,
    };
    assert_eq!(run(words), wanted, "{words:?}");
}

/// Demands a complaint with these words in it, no answer, and exit status 3.
pub fn expect_error(words: &[&str], parts: &[&str]) {
    let said = run(words);
    assert_eq!((said.out.as_str(), said.status), ("", 3), "{words:?}");
    assert!(said.err.starts_with("limpidorsa: "), "{}", said.err);
    assert_eq!(said.err.lines().count(), 1, "{}", said.err);
    for part in parts {
        assert!(said.err.contains(part), "{part:?} is not in {:?}", said.err);
    }
}
