//! The header for C and C++.
use crate::declared::{Constant, Declarations, Declared};
use crate::note::{laid, length};
use crate::prototype::{constant, prototype, tagged, type_name, variable, WIDTH};

const BEGIN: &str = "#ifndef LIMPIDORSA_H
#define LIMPIDORSA_H

#include <stdbool.h>
#include <stddef.h>
#include <stdint.h>

#ifdef __cplusplus
extern \"C\" {
#endif
";

const END: &str = "
#ifdef __cplusplus
}
#endif

#endif
";

/// The header's text.
pub fn header(declarations: &Declarations) -> String {
    let constants = constants_of(declarations);
    let mut text = comment(&declarations.opening, &constants) + BEGIN;
    for declared in &declarations.all {
        text.push('\n');
        text += &declaration(declared, &constants);
    }
    text + END
}

fn constants_of(declarations: &Declarations) -> Vec<&str> {
    let groups = declarations.all.iter().filter_map(|declared| match declared {
        Declared::Constants { all, .. } => Some(all),
        _ => None,
    });
    groups.flatten().map(|one| one.name.as_str()).collect()
}

fn declaration(declared: &Declared, constants: &[&str]) -> String {
    match declared {
        Declared::Constants { note, all } => comment(note, constants) + &enumeration(all),
        Declared::Struct { note, name, fields } => {
            let fields: String = fields
                .iter()
                .map(|field| format!("    {};\n", variable(field)))
                .collect();
            format!("{}{} {{\n{fields}}};\n", comment(note, constants), tagged(name))
        }
        Declared::Function {
            note,
            name,
            parameters,
            result,
        } => {
            let result = result.as_ref().map_or("void".into(), type_name);
            comment(note, constants) + &prototype(&format!("{result} {name}("), parameters)
        }
    }
}

// A note as one comment. It is closed in a line of its own where it has several paragraphs. A constant that is named
// between backticks has its name of C.
fn comment(note: &[String], constants: &[&str]) -> String {
    if note.is_empty() {
        return String::new();
    }
    let named: Vec<String> = note.iter().map(|line| in_c(line, constants)).collect();
    let is_long = note.iter().any(|line| line.is_empty() || line.starts_with(' '));
    let mut lines = laid(&named, WIDTH - 3, if is_long { "" } else { "*/" });
    if is_long {
        lines.push("*/".into());
    }
    let lead = |(i, line): (usize, &String)| match line.as_str() {
        "" => " *\n".to_string(),
        "*/" => " */\n".to_string(),
        line => format!("{} {line}\n", if i == 0 { "/*" } else { " *" }),
    };
    lines.iter().enumerate().map(lead).collect()
}

fn in_c(line: &str, constants: &[&str]) -> String {
    let pieces = line
        .split('`')
        .enumerate()
        .map(|(i, piece)| match constants.contains(&piece) {
            true if i % 2 == 1 => constant(piece),
            _ => piece.into(),
        });
    pieces.collect::<Vec<String>>().join("`")
}

fn enumeration(all: &[Constant]) -> String {
    let each: Vec<String> = all
        .iter()
        .map(|one| format!("{} = {}", constant(&one.name), one.value))
        .collect();
    let line = format!("enum {{ {} }};\n", each.join(", "));
    if length(&line) <= WIDTH + 1 {
        return line;
    }
    format!("enum {{\n    {},\n}};\n", each.join(",\n    "))
}
