//! The questions of numbers.txt, all in one batch, and the answers that stand beside them.
mod bytes;

use bytes::Names;
use std::fs::{self, File};
use std::path::{Path, PathBuf};
use std::process::{Command, Output, Stdio};

// The exit status of a batch is the greatest of its lines: some are refused, and none is an error.
const REFUSED: i32 = 2;

fn here(name: &str) -> PathBuf {
    Path::new(env!("CARGO_MANIFEST_DIR")).join(name)
}

// The lines of the file without remarks. A line that begins with a blank goes on with the one before it.
fn lines() -> Vec<String> {
    let text = fs::read_to_string(here("tests/numbers/numbers.txt")).unwrap();
    let mut lines: Vec<String> = Vec::new();
    for line in text.lines() {
        let line = line.split('#').next().unwrap_or_default().trim_end();
        match lines.last_mut() {
            Some(last) if line.starts_with(' ') => *last += line,
            _ => lines.push(line.to_string()),
        }
    }
    lines.retain(|line| !line.is_empty());
    lines
}

// A question and its answer, as they go to the program and come from it, and the line that says them.
struct Case {
    line: String,
    question: String,
    answer: String,
}

// What the file names, and what it asks.
fn read() -> (Names, Vec<Case>) {
    let mut names = Names::default();
    let mut cases = Vec::new();
    for line in lines() {
        if let Some((question, answer)) = line.split_once(" -> ") {
            let (question, answer) = (names.question(question), names.answer(answer));
            cases.push(Case {
                line,
                question,
                answer,
            });
        } else {
            let (name, words) = line.split_once(" = ").expect(&line);
            let before = names.0.insert(name.into(), names.bytes(words));
            assert!(before.is_none(), "{name} stands there twice");
        }
    }
    (names, cases)
}

// What the program says to a batch. Its lines lie in a file, so that neither side waits for the other.
fn batch(lines: &str) -> Output {
    let file = Path::new(env!("CARGO_TARGET_TMPDIR")).join("questions");
    fs::write(&file, lines).unwrap();
    let mut program = Command::new(env!("CARGO_BIN_EXE_limpidorsa"));
    let input = Stdio::from(File::open(file).unwrap());
    program.arg("batch").stdin(input).output().unwrap()
}

#[test]
fn every_question_has_the_answer_beside_it() {
    let (_, cases) = read();
    let questions: Vec<&str> = cases.iter().map(|case| case.question.as_str()).collect();
    let output = batch(&questions.join("\n"));
    let said = String::from_utf8_lossy(&output.stderr);
    assert!(said.is_empty(), "{said}");

    let answers = String::from_utf8(output.stdout).unwrap();
    assert_eq!(answers.lines().count(), cases.len());
    let pairs = cases.iter().zip(answers.lines());
    let differ = pairs.filter(|(case, answer)| *answer != case.answer);
    let wrong: String = differ
        .map(|(case, answer)| format!("\n{}\n   is {answer}", case.line))
        .collect();
    assert!(wrong.is_empty(), "{wrong}");
    assert_eq!(output.status.code(), Some(REFUSED));
    println!("{} questions answered as numbers.txt says", cases.len());
    assert!(cases.len() > 400, "{}", cases.len());
}

// "Its first record is 00 03 01 00 02 00 03 00." And what the words mean, in other words.
#[test]
fn bytes_are_those_of_the_document() {
    let (names, _) = read();
    let same = |one: &str, other: &str| assert_eq!(names.bytes(one), names.bytes(other), "{one}");
    same("A/0-0", "hex:0003010002000300");
    same("B-list", "hex:00010000000000000100000000000000");
    same(
        "2*2(1,258,3)*2",
        "hex:0002010002010300 0:2(1,258,3) 2(1,258,3) hex:0102010002010300",
    );
    same(
        "0-1.2@65535-65536",
        "hex:00020000ffff0000 1.2@65535 0.2@65536 hex:0102000000000100",
    );
}

// Tables that stand in examples/ too are the same there.
#[test]
fn examples_are_the_same_tables() {
    let (names, _) = read();
    let mut met = 0;
    for (name, bytes) in &names.0 {
        if let Ok(found) = fs::read(here("../../examples").join(name)) {
            assert_eq!(&found, bytes, "{name}");
            met += 1;
        }
    }
    assert!(met >= 10, "{met}");
}
