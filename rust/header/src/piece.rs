//! The text of a file cut into its items, in the layout of `rt fmt`: what begins an item stands at the begin of a line,
//! and so does what ends it, with `;` or `}`.

/// An item as it stands in the file.
#[derive(Debug, PartialEq, Eq)]
pub struct Piece {
    /// The line in which it begins, after its comment and its attributes.
    pub line: usize,
    pub above: Above,
    pub text: String,
}

/// What stands right above an item: a comment, line by line, and attributes.
#[derive(Debug, Default, PartialEq, Eq)]
pub struct Above {
    pub note: Vec<String>,
    pub attributes: Vec<String>,
    /// Whether the comment is the one that opens the file.
    pub opens_file: bool,
}

/// The words of a line that is a comment.
fn comment(line: &str) -> Option<&str> {
    let words = line.strip_prefix("//")?;
    Some(words.strip_prefix(' ').unwrap_or(words))
}

/// The comment that opens a file.
pub fn opening(text: &str) -> Vec<String> {
    text.lines().map_while(comment).map(str::to_string).collect()
}

/// The items of a file, or the line in which something is wrong, and what.
pub fn pieces(text: &str) -> Result<Vec<Piece>, (usize, String)> {
    let mut lines = text.lines().zip(1..);
    let mut above = Above::default();
    let mut all = Vec::new();
    while let Some((words, line)) = lines.next() {
        if words.is_empty() {
            // A comment with a free line below it speaks of no item.
            if !above.attributes.is_empty() {
                return Err((line, "nothing stands right below an attribute".into()));
            }
            above = Above::default();
        } else if words.starts_with("#![") {
            // It is the file's, and so is the comment above it.
            above = Above::default();
        } else if let Some(said) = comment(words) {
            above.opens_file |= line == 1;
            above.note.push(said.to_string());
        } else if words.starts_with("#[") {
            above.attributes.push(words.to_string());
        } else {
            let mut text = words.to_string();
            while !is_whole(&text) {
                match lines.next() {
                    Some((more, _)) if !begins(more) => text = text + "\n" + more,
                    _ => return Err((line, format!("the item '{words}' does not end"))),
                }
            }
            let above = std::mem::take(&mut above);
            all.push(Piece { line, above, text });
        }
    }
    Ok(all)
}

// Whether nothing of an item is missing. A long value of a constant ends behind blanks.
fn is_whole(text: &str) -> bool {
    let last = text.lines().last().unwrap_or_default();
    let is_constant = text.trim_start_matches("pub ").starts_with("const ");
    (is_constant && last.ends_with(';')) || (!last.starts_with(' ') && last.ends_with([';', '}']))
}

// Whether a line can only be the begin of an item, and so not a part of the one before it.
fn begins(line: &str) -> bool {
    [
        "//", "#[", "pub ", "use ", "mod ", "const ", "struct ", "enum ", "fn ", "ghost ", "impl ",
    ]
    .iter()
    .any(|word| line.starts_with(word))
}

#[cfg(test)]
mod tests {
    use super::*;

    #[test]
    fn items_with_what_stands_above_them() {
        let text = "// Opens.\n//\n// More.\nuse a::B;\n\n// Of no item.\n\n// Of C.\n#[repr(C)]\npub struct C {\n}\n";
        assert_eq!(opening(text), ["Opens.", "", "More."]);
        let found = pieces(text).unwrap();
        assert_eq!(found.len(), 2);
        assert!(found[0].above.opens_file && found[0].text == "use a::B;");
        assert_eq!(found[1].above.note, ["Of C."]);
        assert_eq!(found[1].above.attributes, ["#[repr(C)]"]);
        assert_eq!((found[1].line, found[1].text.as_str()), (10, "pub struct C {\n}"));
    }

    #[test]
    fn what_is_said_of_the_file() {
        let text = "// Opens.\n#![tactic(auto)]\npub mod a;\n";
        assert_eq!(opening(text), ["Opens."]);
        let found = pieces(text).unwrap();
        assert_eq!((found.len(), found[0].line), (1, 3));
        assert_eq!(found[0].above, Above::default());
    }

    #[test]
    fn where_an_item_ends() {
        let contract = "fn f(x: u8) -> u8\n    ensures { result ≡ x }\n{\n    x;\n}\nfn g() {}\n";
        assert_eq!(pieces(contract).unwrap().len(), 2);
        let constants = "pub const A: u64 = 1\n    + 2;\nconst B: C = C {\n    d: 1,\n};\n";
        assert_eq!(pieces(constants).unwrap().len(), 2);
    }

    #[test]
    fn what_does_not_end_is_told() {
        let told = pieces("use a::B;\n\npub const X: u8 = 1; // why\n\nfn f() {}\n").unwrap_err();
        assert_eq!(
            told,
            (3, "the item 'pub const X: u8 = 1; // why' does not end".into())
        );
        assert_eq!(pieces("#[repr(C)]\n\nfn f() {}\n").unwrap_err().0, 2);
    }
}
