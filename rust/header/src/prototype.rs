//! The names of C: of constants, structs, fields and functions with their parameters.
use crate::declared::{Length, Named, Type};
use crate::note::length;

/// No line of the header is longer.
pub const WIDTH: usize = 120;

/// The name of a constant.
pub fn constant(name: &str) -> String {
    format!("LIMPIDORSA_{name}")
}

/// `struct limpidorsa_overload_size` of OverloadSize.
pub fn tagged(name: &str) -> String {
    let mut tag = String::from("struct limpidorsa");
    for c in name.chars() {
        if c.is_uppercase() {
            tag.push('_');
        }
        tag.extend(c.to_lowercase());
    }
    tag
}

/// A type without what stands behind a name.
pub fn type_name(of: &Type) -> String {
    match of {
        Type::Plain(plain) | Type::Array { of: plain, .. } | Type::Slice { of: plain, .. } => plain.c.into(),
        Type::Struct(name) => tagged(name),
    }
}

/// A field, or a parameter that is no slice.
pub fn variable((name, of): &Named) -> String {
    match of {
        Type::Array {
            length: Length::Constant(many),
            ..
        } => format!("{} {name}[{}]", type_name(of), constant(many)),
        Type::Array {
            length: Length::Number(many),
            ..
        } => format!("{} {name}[{many}]", type_name(of)),
        _ => format!("{} {name}", type_name(of)),
    }
}

// A slice is a pointer and a length.
fn parameter(named: &Named) -> Vec<String> {
    match named {
        (name, Type::Slice { of, mutable }) => {
            let lent = if *mutable { "" } else { "const " };
            vec![format!("{lent}{} *{name}", of.c), format!("size_t {name}_len")]
        }
        _ => vec![variable(named)],
    }
}

/// A function, from its result on. What does not fit into a line goes on below the first parameter.
pub fn prototype(head: &str, parameters: &[Named]) -> String {
    let mut all: Vec<String> = parameters.iter().flat_map(parameter).collect();
    if all.is_empty() {
        all.push("void".into());
    }
    let mut lines = vec![head.to_string()];
    let many = all.len();
    for (i, one) in all.into_iter().enumerate() {
        let one = one + if i + 1 == many { ");" } else { "," };
        let last = lines.last_mut().expect("the first line is there");
        let blank = if last.ends_with(',') { " " } else { "" };
        if length(last) + blank.len() + length(&one) <= WIDTH || blank.is_empty() {
            *last = format!("{last}{blank}{one}");
        } else {
            lines.push(" ".repeat(length(head)) + &one);
        }
    }
    lines.join("\n") + "\n"
}
