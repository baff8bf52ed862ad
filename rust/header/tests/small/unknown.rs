//! What is not known: the file and the line are named, and what it is.
use crate::of;

// What is said of the file that begins in line 3.
fn error(text: &str) -> String {
    let told = of(text).unwrap_err();
    let told = told.strip_prefix("crates/desk/src/floor.rt:").map(String::from);
    told.expect("it is about that file")
}

#[test]
fn types() {
    let field = |of: &str| {
        error(&format!(
            "#[repr(C)]\npub struct A {{\n    pub x: u8,\n    pub y: {of},\n}}\n"
        ))
    };
    assert_eq!(field("Option<u8>"), "6: the type 'Option<u8>' is not known here");
    assert_eq!(
        field("B"),
        "6: there is no struct B: it was looked for in crates/desk/src/floor.rt"
    );
    assert_eq!(
        field("table::B"),
        "6: there is no struct table::B: it was looked for in crates/table/src/lib.rt"
    );
    assert_eq!(field("&[u8]"), "6: the field y of A is lent, and not held: &[u8]");
    let inner = error("#[repr(C)]\npub struct A {\n    pub b: B,\n}\n\npub struct B {\n    x: u8,\n}\n");
    assert_eq!(inner, "8: the struct B is handed out, and has no #[repr(C)]");
    let comment = error("#[repr(C)]\npub struct A {\n    // why\n    pub x: u8,\n}\n");
    assert_eq!(comment, "4: '// why' in the struct A is no field");
}

#[test]
fn functions() {
    let told = |head: &str| error(&format!("#[tactic(auto)]\npub fn {head} {{\n    0\n}}\n"));
    let pair = told("limpidorsa_f(x: (u8, u8))");
    assert_eq!(
        pair,
        "4: the exported function 'limpidorsa_f(x: (u8, u8)) {' is not known"
    );
    let generic = told("limpidorsa_f<T>(x: T)");
    assert_eq!(
        generic,
        "4: the exported function limpidorsa_f takes types, which C does not know"
    );
    assert_eq!(
        told("limpidorsa_f(x: &u8)"),
        "4: the type '&u8' is not known here"
    );
    assert_eq!(
        told("limpidorsa_f(x: [u8; 2])"),
        "4: C takes no array by value: x: [u8; 2]"
    );
    assert_eq!(
        told("limpidorsa_f() -> [u8; 2]"),
        "4: limpidorsa_f answers neither a number nor a struct"
    );
    let odd = told("limpidorsa_f() => u8");
    assert_eq!(
        odd,
        "4: the exported function 'limpidorsa_f() => u8 {' is not known"
    );
    for clause in [
        "requires { x < 1 }",
        "requires small { x < 1 }",
        "requires* { ⌜ x < 1 ⌝ }",
    ] {
        assert_eq!(
            error(&format!(
                "#[tactic(auto)]\npub fn limpidorsa_f(x: u8)\n    {clause}\n{{\n}}\n"
            )),
            "4: the exported function limpidorsa_f requires something, to which C is not held"
        );
    }
    let unmangled = error("pub extern \"C\" fn f() {}\n");
    assert_eq!(
        unmangled,
        "3: 'pub extern \"C\" fn f() {}' begins no item that is known here"
    );
    let exported = error("#[unsafe(no_mangle)]\npub extern \"C\" fn limpidorsa_f() {}\n");
    assert_eq!(
        exported,
        "4: limpidorsa_f is exported here, and a library exports nothing"
    );
}

#[test]
fn values() {
    let told = |value: &str| error(&format!("pub const A: u64 = {value};\n"));
    let minus = "3: the value '2 - 1' is not known here: numbers, names, products and sums of them are";
    assert_eq!(told("2 - 1"), minus);
    assert_eq!(
        told("B"),
        "3: there is no constant B: it was looked for in crates/desk/src/floor.rt"
    );
    assert_eq!(told("A"), "3: the constant A goes round in a circle");
    assert_eq!(
        told("2147483648"),
        "3: the constant A is 2147483648, which an enum of C does not hold"
    );
    assert_eq!(
        error("pub const A: u8 = 256;\n"),
        "3: the constant A is 256, which is no u8"
    );
}

#[test]
fn items() {
    assert_eq!(
        error("static X: u8 = 1;\n"),
        "3: 'static X: u8 = 1;' begins no item that is known here"
    );
    let attribute = error("#[repr(u8)]\npub enum A {\n    B,\n}\n");
    assert_eq!(attribute, "4: #[repr(u8)] above 'pub enum A {' is not known here");
    for several in ["a::{B, c::{D}};", "a::{self, B};", "a::*;"] {
        assert_eq!(
            error(&format!("use {several}\n")),
            format!("3: 'use {several}' brings in more than names, one by one")
        );
    }
    let comment = error("// */ ends.\npub const A: u8 = 1;\n");
    assert_eq!(
        comment,
        "4: a comment has /* or */ in it, which C would take for its own"
    );
    let twice = error("pub const A: u8 = 1;\n\n#[repr(C)]\npub struct A {\n    pub x: u8,\n}\n");
    assert_eq!(
        twice,
        "6: A is declared in crates/desk/src/floor.rt:3 too: one name cannot be two things"
    );
    let behind = error("pub const A: u8 = 1; // why\n\npub const B: u8 = 1;\n");
    assert_eq!(behind, "3: the item 'pub const A: u8 = 1; // why' does not end");
}
