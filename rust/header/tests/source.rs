//! The program run on the small repository of tests/source: what it writes, and what it says of files that differ.
use std::fs;
use std::ops::Deref;
use std::path::{Path, PathBuf};
use std::process::{Command, Output};

const WRITTEN: [&str; 2] = ["crates/desk/limpidorsa.h", "rust/desk/src/raw.rs"];

fn fixture() -> PathBuf {
    Path::new(env!("CARGO_MANIFEST_DIR")).join("tests/source")
}

fn run(words: &[&str], folder: &Path) -> Output {
    let program = env!("CARGO_BIN_EXE_header");
    Command::new(program).args(words).arg(folder).output().unwrap()
}

fn text(folder: &Path, file: &str) -> String {
    fs::read_to_string(folder.join(file)).unwrap()
}

fn said(output: &Output) -> String {
    String::from_utf8_lossy(&output.stdout).into_owned() + &String::from_utf8_lossy(&output.stderr)
}

// A copy of the small repository, with its sources under their own names, which goes with the test. It stands outside
// this repository: the gate would take its sources for lost ones.
struct Copied(PathBuf);

impl Deref for Copied {
    type Target = Path;
    fn deref(&self) -> &Path {
        &self.0
    }
}

impl Drop for Copied {
    fn drop(&mut self) {
        let _ = fs::remove_dir_all(&self.0);
    }
}

fn copy(name: &str) -> Copied {
    let to = std::env::temp_dir().join(format!("limpidorsa-header-{}-{name}", std::process::id()));
    copy_folder(&fixture(), &to);
    Copied(to)
}

// Rattle's files end in .rt.txt here: a file that ends in .rt and belongs to no crate shuts the gate.
fn source_name(file: &Path) -> PathBuf {
    let ends = file.extension().is_some_and(|end| end == "txt");
    if ends {
        file.with_extension("")
    } else {
        file.to_path_buf()
    }
}

fn copy_folder(from: &Path, to: &Path) {
    fs::create_dir_all(to).unwrap();
    for entry in fs::read_dir(from).unwrap().map(Result::unwrap) {
        let target = to.join(entry.file_name());
        if entry.file_type().unwrap().is_dir() {
            copy_folder(&entry.path(), &target);
        } else {
            fs::copy(entry.path(), source_name(&target)).unwrap();
        }
    }
}

#[test]
fn what_is_kept_is_what_is_written() {
    let checked = run(&["--check"], &copy("checked"));
    assert!(
        checked.status.success() && said(&checked).is_empty(),
        "{}",
        said(&checked)
    );

    let folder = copy("written");
    for file in WRITTEN {
        fs::remove_file(folder.join(file)).unwrap();
    }
    let ran = run(&[], &folder);
    assert!(ran.status.success() && said(&ran).is_empty(), "{}", said(&ran));
    for file in WRITTEN {
        assert_eq!(text(&folder, file), text(&fixture(), file), "{file}");
    }
}

#[test]
fn a_check_names_the_file_that_differs_and_writes_nothing() {
    let folder = copy("differs");
    let [header, raw] = WRITTEN;
    let changed = text(&folder, header).replace("bool closes", "int closes");
    fs::write(folder.join(header), &changed).unwrap();
    let checked = run(&["--check"], &folder);
    assert_eq!(checked.status.code(), Some(1));
    let line = 1 + changed
        .lines()
        .position(|line| line.contains("int closes"))
        .unwrap();
    assert!(said(&checked).starts_with(&format!(
        "{header}: it is not what the source says, from line {line} on; "
    )));
    assert!(!said(&checked).contains(raw));
    assert_eq!(text(&folder, header), changed);

    fs::remove_file(folder.join(raw)).unwrap();
    let checked = run(&["--check"], &folder);
    assert!(
        checked.status.code() == Some(1) && said(&checked).contains(header) && said(&checked).contains(raw)
    );
    assert!(!folder.join(raw).exists());
}

#[test]
fn a_line_that_is_not_known_is_named_and_nothing_is_written() {
    let folder = copy("unknown");
    let file = "crates/desk/src/answers.rt";
    let source = text(&folder, file).replace("pub window: u64", "pub window: Option<u64>");
    fs::write(folder.join(file), source).unwrap();
    fs::remove_file(folder.join(WRITTEN[0])).unwrap();
    let ran = run(&[], &folder);
    assert_eq!(ran.status.code(), Some(1));
    assert_eq!(
        said(&ran),
        format!("header: {file}:16: the type 'Option<u64>' is not known here\n")
    );
    assert!(!folder.join(WRITTEN[0]).exists());
}

#[test]
fn a_word_that_is_not_known_is_told() {
    let ran = run(&["--chek"], &fixture());
    assert_eq!(ran.status.code(), Some(1));
    assert_eq!(said(&ran), "header: it is 'header [--check] [FOLDER]'\n");
}
