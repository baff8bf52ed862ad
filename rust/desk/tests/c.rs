//! The header crates/desk/limpidorsa.h as C and C++ see it: the program of tests/c is compiled, linked with the archive
//! and run, and the header alone is compiled as C++.
use std::env;
use std::io::{stderr, ErrorKind, Write};
use std::path::{Path, PathBuf};
use std::process::{Command, Output};

const STRICT: [&str; 4] = ["-Wall", "-Wextra", "-Wpedantic", "-Werror"];

const SOURCES: [&str; 4] = ["calls.c", "lists.c", "bench.c", "limits.c"];

fn here(name: &str) -> PathBuf {
    Path::new(env!("CARGO_MANIFEST_DIR")).join(name)
}

// The compiler that the environment names, or the usual one. Such a variable may have options behind the name.
fn compiler(variable: &str, usual: &str) -> Command {
    let named = env::var(variable).unwrap_or_default();
    let mut words = named.split_whitespace();
    let mut command = Command::new(words.next().unwrap_or(usual));
    command
        .args(words)
        .args(STRICT)
        .arg("-I")
        .arg(here("../../crates/desk"));
    command
}

// What a program says, where it is on this machine.
fn output_of(command: &mut Command) -> Option<Output> {
    match command.output() {
        Ok(output) => Some(output),
        Err(error) if error.kind() == ErrorKind::NotFound => None,
        Err(error) => panic!("{command:?}: {error}"),
    }
}

// Both of its outputs, to be shown where it failed.
fn said(output: &Output) -> String {
    let text = |bytes: &[u8]| String::from_utf8_lossy(bytes).into_owned();
    text(&output.stdout) + &text(&output.stderr)
}

#[test]
fn a_c_program_gets_every_answer() {
    let program = Path::new(env!("CARGO_TARGET_TMPDIR")).join("calls");
    let mut build = compiler("CC", "cc");
    build.arg("-std=c11").arg("-o").arg(&program);
    build.args(SOURCES.map(|name| here("tests/c").join(name)));
    build.arg(here("../../target/staticlib/libdesk.a"));
    let built = output_of(&mut build)
        .expect("no C compiler: install gcc or clang so that `cc` is there, or name one in the variable CC");
    assert!(built.status.success(), "{build:?}\n{}", said(&built));

    let ran = output_of(&mut Command::new(&program)).expect("the program was built");
    let all = said(&ran);
    let last = all.lines().last().unwrap_or_default();
    println!("{last}");
    let count = last.strip_suffix(" checks, 0 failed").map(str::parse::<u32>);
    assert!(ran.status.success() && matches!(count, Some(Ok(1..))), "{all}");
}

#[test]
fn the_header_is_c_plus_plus_too() {
    let mut look = compiler("CXX", "c++");
    look.args(["-fsyntax-only", "-x", "c++"])
        .arg(here("../../crates/desk/limpidorsa.h"));
    match output_of(&mut look) {
        Some(looked) => assert!(looked.status.success(), "{look:?}\n{}", said(&looked)),
        // Not by println, which a test that passes keeps to itself.
        None => writeln!(
            stderr(),
            "NOT TRIED as C++: limpidorsa.h, for no C++ compiler is here"
        )
        .unwrap(),
    }
}
