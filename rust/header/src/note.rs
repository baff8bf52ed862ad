//! Comments of the source laid out anew, within a width.

/// A note line by line. Lines that follow each other are one paragraph, which is filled anew; an empty line parts two
/// paragraphs, and a line that begins with a blank is kept as it stands. `end` is set behind the last word.
pub fn laid(note: &[String], width: usize, end: &str) -> Vec<String> {
    let mut lines: Vec<String> = Vec::new();
    let mut fills = false;
    let words = note
        .iter()
        .map(String::as_str)
        .chain((!end.is_empty()).then_some(end));
    for line in words {
        if line.is_empty() || line.starts_with(' ') {
            lines.push(line.into());
            fills = false;
            continue;
        }
        for word in line.split_whitespace() {
            match lines.last_mut() {
                Some(last) if fills && length(last) + 1 + length(word) <= width => {
                    *last = format!("{last} {word}")
                }
                _ => lines.push(word.into()),
            }
            fills = true;
        }
    }
    lines
}

/// How many characters a text has.
pub fn length(text: &str) -> usize {
    text.chars().count()
}

#[cfg(test)]
mod tests {
    use super::*;

    fn of(note: &[&str], width: usize, end: &str) -> Vec<String> {
        laid(
            &note.iter().map(|line| line.to_string()).collect::<Vec<_>>(),
            width,
            end,
        )
    }

    #[test]
    fn a_paragraph_is_filled_anew() {
        assert_eq!(
            of(&["one two", "three", "four"], 9, ""),
            ["one two", "three", "four"]
        );
        assert_eq!(
            of(&["one two", "three", "four"], 13, ""),
            ["one two three", "four"]
        );
        assert_eq!(of(&["one", "two"], 2, ""), ["one", "two"]);
    }

    #[test]
    fn paragraphs_and_kept_lines_stay_apart() {
        assert_eq!(of(&["one", "two", "", "three"], 99, ""), ["one two", "", "three"]);
        assert_eq!(of(&["one", "  kept", "two"], 99, ""), ["one", "  kept", "two"]);
    }

    #[test]
    fn the_end_stands_within_the_width_too() {
        assert_eq!(of(&["one two"], 10, "*/"), ["one two */"]);
        assert_eq!(of(&["one two"], 9, "*/"), ["one two", "*/"]);
        assert_eq!(of(&["λ⌜"], 5, "*/"), ["λ⌜ */"]);
    }
}
