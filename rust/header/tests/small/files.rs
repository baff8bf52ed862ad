//! What is said of files that are not as they have to be.
use crate::of_files;

#[test]
fn files_that_are_hidden_or_gone_or_open_with_an_item() {
    let floor = "desk/src/floor:\n// A.\n\n#[tactic(auto)]\npub fn limpidorsa_f() {}\n";
    let hidden = of_files(&["desk/src/lib:\n// Opens.\nmod floor;\n", floor]).unwrap_err();
    let wanted =
        "crates/desk/src/floor.rt:4: limpidorsa_f is exported from a file that is not public in lib.rt";
    assert_eq!(hidden, wanted);
    let gone = of_files(&["desk/src/lib:\n// Opens.\npub mod floor;\n"]).unwrap_err();
    assert_eq!(gone, "crates/desk/src/floor.rt: there is no such file");
    let opening = of_files(&["desk/src/lib:\n// Opens.\npub const A: u8 = 1;\n"]).unwrap_err();
    assert!(
        opening.starts_with("crates/desk/src/lib.rt:2: the comment that opens the file stands right above ")
    );
}

#[test]
fn lengths_whose_name_comes_later() {
    let answers = "desk/src/answers:
// The answers.
use crate::limits::MOST;

#[repr(C)]
pub struct A {
    pub x: [u8; MOST],
}
";
    let limits = "desk/src/limits:\n// The limits.\n\npub const MOST: usize = 9;\n";
    let told = of_files(&[
        "desk/src/lib:\n// Opens.\npub mod answers;\npub mod limits;\n",
        answers,
        limits,
    ]);
    assert!(told
        .unwrap_err()
        .starts_with("crates/desk/src/answers.rt:6: MOST is written after this, "));
}
