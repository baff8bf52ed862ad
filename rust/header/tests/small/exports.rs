//! What is said of a static library that does not export what is written.
use crate::of_files;

const LIB: &str = "desk/src/lib:\n// Opens.\npub mod floor;\n";

const FLOOR: &str = "desk/src/floor:
// The floor.

pub fn limpidorsa_f(x: u8) -> u8
    ensures { result ≡ x }
{
    x
}
";

const EXPORTS: &str = "desk_c/src/lib:
// The exports.
#![tactic(auto)]

#[unsafe(no_mangle)]
pub extern \"C\" fn limpidorsa_f(x: u8) -> u8
    ensures { result ≡ x }
{
    desk::floor::limpidorsa_f(x)
}
";

const SECOND: &str = "
#[unsafe(no_mangle)]
pub extern \"C\" fn limpidorsa_f(x: u8) -> u8
    ensures { result ≡ x }
{
    x
}
";

fn error(exports: &str) -> String {
    of_files(&[LIB, FLOOR, exports]).unwrap_err()
}

// What is said of the line in which the function is exported.
fn of_line(exports: &str) -> String {
    let told = error(exports);
    let told = told.strip_prefix("crates/desk_c/src/lib.rt:5: ");
    told.expect("it is about that line").into()
}

#[test]
fn what_is_exported_is_what_is_written() {
    assert!(of_files(&[LIB, FLOOR, EXPORTS]).is_ok());
    let apart = EXPORTS.replace("src/lib", "src/floor");
    let named = "desk_c/src/lib:\n// The exports.\nmod floor;\n";
    assert!(of_files(&[LIB, FLOOR, named, &apart]).is_ok());
}

#[test]
fn what_is_not_exported() {
    let missing = "crates/desk/src/floor.rt:3: limpidorsa_f is not exported by the crate desk_c";
    assert_eq!(error("desk_c/src/lib:\n// The exports.\n"), missing);
    assert_eq!(
        error(
            &EXPORTS
                .replace("extern \"C\" ", "")
                .replace("#[unsafe(no_mangle)]\n", "")
        ),
        missing
    );
}

#[test]
fn what_is_exported_beside_it() {
    assert_eq!(
        of_line(&EXPORTS.replace("fn limpidorsa_f", "fn limpidorsa_g")),
        "limpidorsa_g is exported, and no public function has its name"
    );
    assert_eq!(
        of_line(&EXPORTS.replace("fn limpidorsa_f", "fn f")),
        "f is exported, and its name does not begin with limpidorsa_"
    );
    assert_eq!(
        error(&format!("{EXPORTS}{SECOND}")),
        "crates/desk_c/src/lib.rt:12: limpidorsa_f is exported twice"
    );
}

#[test]
fn what_is_exported_with_other_words() {
    let signature = "limpidorsa_f is exported with other parameters or another result than in \
                     crates/desk/src/floor.rt:3";
    for (old, new) in [
        ("x: u8", "x: u16"),
        ("x: u8", "y: u8"),
        ("-> u8", "-> u16"),
        (" -> u8", ""),
    ] {
        assert_eq!(of_line(&EXPORTS.replace(old, new)), signature, "{new}");
    }
    let clauses = "limpidorsa_f is exported with other clauses than in crates/desk/src/floor.rt:3";
    for (old, new) in [("≡ x", "≡ result"), ("\n    ensures { result ≡ x }", "")] {
        assert_eq!(of_line(&EXPORTS.replace(old, new)), clauses, "{new}");
    }
}
