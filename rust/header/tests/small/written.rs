//! What is written.
use crate::{declared, of, of_files};

const NUMBERS: &str = "// Two numbers, and
// sixteen.
#[repr(C)]
#[derive(Clone, Copy)]
pub struct TwoNumbers {
    pub is_good: bool,
    pub first: i64,
    pub rest: [u8; 16],
}
";

const NUMBERS_IN_C: &str = "/* Two numbers, and sixteen. */
struct limpidorsa_two_numbers {
    bool is_good;
    int64_t first;
    uint8_t rest[16];
};
";

const NUMBERS_IN_RUST: &str = "// Written from crates/desk/src by the program in rust/header: do not edit.

#[repr(C)]
#[derive(Debug, Clone, Copy, PartialEq, Eq)]
pub struct TwoNumbers {
    pub is_good: bool,
    pub first: i64,
    pub rest: [u8; 16],
}
";

#[test]
fn a_struct() {
    let texts = of(NUMBERS).unwrap();
    assert_eq!(declared(&texts), NUMBERS_IN_C);
    assert!(texts.raw.starts_with(NUMBERS_IN_RUST), "{}", texts.raw);
}

const STRUCTS: [&str; 4] = [
    "desk/src/lib:\n// Opens.\npub mod floor;\n",
    "desk/src/floor:
// The floor.
use table::reader::Refusal;

#[repr(C)]
pub struct A {
    pub b: B,
    pub no: Refusal,
}

// Of no use.
#[repr(C)]
pub struct B {
    pub no: table::reader::Refusal,
}
",
    "table/src/lib:\n// The table.\npub mod reader;\n",
    "table/src/reader:
// Reads.

// No.
#[repr(C)]
pub struct Refusal {
    pub number: u8,
}
",
];

const STRUCTS_IN_C: &str = "/* No. */
struct limpidorsa_refusal {
    uint8_t number;
};

/* Of no use. */
struct limpidorsa_b {
    struct limpidorsa_refusal no;
};

struct limpidorsa_a {
    struct limpidorsa_b b;
    struct limpidorsa_refusal no;
};
";

#[test]
fn a_struct_comes_after_those_that_it_is_made_of() {
    assert_eq!(declared(&of_files(&STRUCTS).unwrap()), STRUCTS_IN_C);
}

const CONSTANTS: [&str; 4] = [
    "desk/src/lib:\n// Opens.\npub mod floor;\n",
    "desk/src/floor:
// The floor.
use table::record::SIZE as BYTES;

// Most, see `SUM`, SUM and `sum`.
pub const MOST: usize = table::MOST * BYTES;

pub const SUM: u64 = 1_000
    + 2 * crate::floor::MOST;

const HIDDEN: u8 = 1;

pub const AFTER: u8 = HIDDEN;
",
    "table/src/lib:\n// The table.\npub mod record;\n\npub const MOST: usize = 64;\n",
    "table/src/record:\n// One.\n\npub const SIZE: usize = 8;\n",
];

const CONSTANTS_IN_C: &str = "/* Most, see `LIMPIDORSA_SUM`, SUM and `sum`. */
enum { LIMPIDORSA_MOST = 512, LIMPIDORSA_SUM = 2024 };

enum { LIMPIDORSA_AFTER = 1 };
";

const CONSTANTS_IN_RUST: &str = "
pub const MOST: usize = 512;
pub const SUM: u64 = 2024;

pub const AFTER: u8 = 1;
";

#[test]
fn constants_that_are_products_of_paths() {
    let texts = of_files(&CONSTANTS).unwrap();
    assert_eq!(declared(&texts), CONSTANTS_IN_C);
    assert!(texts.raw.contains(CONSTANTS_IN_RUST), "{}", texts.raw);
}

#[test]
fn many_constants_stand_below_each_other() {
    let each = |i: usize| format!("pub const A_LONG_NAME_OF_NUMBER_{i}: u8 = {i};\n\n");
    let texts = of(&(1..=3).map(each).collect::<String>()).unwrap();
    let lines: Vec<&str> = declared(&texts).lines().collect();
    assert_eq!((lines.len(), lines[0], lines[4]), (5, "enum {", "};"));
    assert_eq!(lines[3], "    LIMPIDORSA_A_LONG_NAME_OF_NUMBER_3 = 3,");
}
