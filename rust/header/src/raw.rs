//! Rust's raw declarations, laid out as rustfmt does.
use crate::declared::{Declarations, Declared, Length, Named, Type};

/// The width of rust/rustfmt.toml.
const WIDTH: usize = 110;

const BEGIN: &str = "// Written from crates/desk/src by the program in rust/header: do not edit.\n";

const DERIVED: &str = "#[repr(C)]\n#[derive(Debug, Clone, Copy, PartialEq, Eq)]\n";

/// The text of raw.rs.
pub fn raw(declarations: &Declarations) -> String {
    let mut text = String::from(BEGIN);
    let mut functions = String::new();
    for declared in &declarations.all {
        match declared {
            Declared::Constants { all, .. } => {
                text.push('\n');
                for one in all {
                    text += &format!("pub const {}: {} = {};\n", one.name, one.of.rust, one.value);
                }
            }
            Declared::Struct { name, fields, .. } => {
                let fields: String = fields
                    .iter()
                    .map(|field| format!("    pub {},\n", variable(field)))
                    .collect();
                text += &format!("\n{DERIVED}pub struct {name} {{\n{fields}}}\n");
            }
            Declared::Function {
                name,
                parameters,
                result,
                ..
            } => {
                functions += &function(name, parameters, result.as_ref());
            }
        }
    }
    format!("{text}\n// A slice of Rattle is a pointer and then a length.\nextern \"C\" {{\n{functions}}}\n")
}

fn type_name(of: &Type) -> String {
    match of {
        Type::Plain(plain) => plain.rust.into(),
        Type::Array {
            of,
            length: Length::Constant(many),
        } => format!("[{}; {many}]", of.rust),
        Type::Array {
            of,
            length: Length::Number(many),
        } => format!("[{}; {many}]", of.rust),
        Type::Slice { of, mutable: true } => format!("*mut {}", of.rust),
        Type::Slice { of, mutable: false } => format!("*const {}", of.rust),
        Type::Struct(name) => name.clone(),
    }
}

fn variable((name, of): &Named) -> String {
    format!("{name}: {}", type_name(of))
}

fn function(name: &str, parameters: &[Named], result: Option<&Type>) -> String {
    let mut all = Vec::new();
    for named in parameters {
        all.push(variable(named));
        if let (name, Type::Slice { .. }) = named {
            all.push(format!("{name}_len: usize"));
        }
    }
    let result = result
        .map(|of| format!(" -> {}", type_name(of)))
        .unwrap_or_default();
    let line = format!("    pub fn {name}({}){result};", all.join(", "));
    if line.len() <= WIDTH {
        return line + "\n";
    }
    let all: String = all.iter().map(|one| format!("        {one},\n")).collect();
    format!("    pub fn {name}(\n{all}    ){result};\n")
}
