//! What is written of functions, and what is not written.
use crate::{declared, of};

const WRITE: &str = "// Writes.
pub fn limpidorsa_write<'a, 'b>(table: &'a [u8], buffer: &'b mut [u8], place: usize) -> bool
    ensures { result ≡ result }
{
    true
}
";

const WRITE_IN_C: &str = "/* Writes. */
bool limpidorsa_write(const uint8_t *table, size_t table_len, uint8_t *buffer, size_t buffer_len, size_t place);
";

const WRITE_LONG_IN_C: &str = "/* Writes. */
bool limpidorsa_write(const uint8_t *a_long_table, size_t a_long_table_len, uint8_t *buffer, size_t buffer_len,
                      size_t place);
";

const WRITE_IN_RUST: &str = "
    pub fn limpidorsa_write(
        table: *const u8,
        table_len: usize,
        buffer: *mut u8,
        buffer_len: usize,
        place: usize,
    ) -> bool;
}
";

#[test]
fn a_function_with_two_lifetimes_and_a_mut() {
    let texts = of(WRITE).unwrap();
    assert_eq!(declared(&texts), WRITE_IN_C);
    assert!(texts.raw.ends_with(WRITE_IN_RUST), "{}", texts.raw);
    assert_eq!(
        declared(&of(&WRITE.replace("table", "a_long_table")).unwrap()),
        WRITE_LONG_IN_C
    );
}

#[test]
fn a_function_of_nothing() {
    let texts = of("pub fn limpidorsa_nothing() {}\n").unwrap();
    assert_eq!(declared(&texts), "void limpidorsa_nothing(void);\n");
    assert!(texts.raw.ends_with("{\n    pub fn limpidorsa_nothing();\n}\n"));
}

const NOT_FOR_C: &str = "ghost use Rattle.a.specs.A.{b};

// No.
pub const NONE: No = No {
    x: 1,
};

const HIDDEN: u8 = 1;

#[derive(Clone, Copy)]
pub struct Inner {
    x: Option<u8>,
}

#[derive(Clone, Copy)]
pub enum Either {
    A,
    B,
}

#[tactic(auto, using(b))]
pub fn f(x: &mut Inner) -> Either
    requires { b x.old }
{
    Either::A
}

#[inline(always)]
pub fn h(x: Inner) -> Inner {
    x
}

impl Inner {
    pub fn g(self) {}
}

pub const LAST: u8 = 1;
";

#[test]
fn what_is_not_for_c_is_not_written() {
    assert_eq!(
        declared(&of(NOT_FOR_C).unwrap()),
        "enum { LIMPIDORSA_LAST = 1 };\n"
    );
}
