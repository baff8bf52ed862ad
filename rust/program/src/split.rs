//! A line of text as words.

/// The words of a line, which blanks separate; quotes, single or double, keep the blanks between them.
pub fn words(line: &str) -> Result<Vec<String>, String> {
    let mut words = Vec::new();
    let mut word: Option<String> = None;
    let mut quote: Option<char> = None;
    for c in line.chars() {
        match quote {
            Some(q) if c == q => quote = None,
            Some(_) => word.get_or_insert_default().push(c),
            None if c == '"' || c == '\'' => {
                quote = Some(c);
                word.get_or_insert_default();
            }
            None if c.is_ascii_whitespace() => words.extend(word.take()),
            None => word.get_or_insert_default().push(c),
        }
    }
    if let Some(q) = quote {
        return Err(format!("a quote {q} is opened and not closed; close it"));
    }
    words.extend(word);
    Ok(words)
}

#[cfg(test)]
mod tests {
    use super::*;

    #[test]
    fn words_and_quotes() {
        let split = |line| words(line).unwrap();
        assert_eq!(
            split(" read  \"hex:00 03\"\t'a \"b' \r"),
            ["read", "hex:00 03", "a \"b"]
        );
        assert_eq!(split("hex:\"00 03\"04 ''"), ["hex:00 0304", ""]);
        assert!(split(" \t").is_empty());
        assert_eq!(
            words("read 'a").unwrap_err(),
            "a quote ' is opened and not closed; close it"
        );
    }
}
