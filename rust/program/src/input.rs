//! TABLE and LIST arguments as bytes: a file's name, `-` for standard input, or `hex:` and the bytes themselves.
use crate::output::shown;
use std::fs::File;
use std::io::{self, ErrorKind, Read};

/// No more of a file than this is read. Longer tables and lists are refused by their length alone, 1 or 10, whatever
/// they hold; so reading on would change no answer.
pub const MOST: u64 = 1 << 20;

// What to do, of a table and of a list, in a call and in a batch.
const NAME_ONE: &str = "name another file, or write hex:BYTES";

/// Where the bytes of one call come from.
pub struct Input {
    standard: Standard,
}

enum Standard {
    Free,
    Taken,
    HoldsTheBatch,
}

impl Input {
    /// For a call on the command line, where one argument may be standard input.
    pub fn of_call() -> Input {
        Input {
            standard: Standard::Free,
        }
    }

    /// For a line of a batch, where standard input holds the lines.
    pub fn of_batch() -> Input {
        Input {
            standard: Standard::HoldsTheBatch,
        }
    }

    /// The bytes that a word names, or why there are none and what to do.
    pub fn bytes(&mut self, word: &str) -> Result<Vec<u8>, String> {
        if word.is_empty() {
            return Err(format!("a file's name is empty; {NAME_ONE}"));
        }
        if word == "-" {
            return self.standard_input();
        }
        match word.strip_prefix("hex:") {
            Some(digits) => hex(digits),
            None => File::open(word)
                .and_then(bounded)
                .map_err(|e| format!("{}: {}", shown(word), reason(&e))),
        }
    }

    fn standard_input(&mut self) -> Result<Vec<u8>, String> {
        match self.standard {
            Standard::HoldsTheBatch => {
                Err("-: standard input holds the batch itself; name a file, or write hex:BYTES".into())
            }
            Standard::Taken => {
                Err("-: standard input is read once, and was taken; name a file, or write hex:BYTES".into())
            }
            Standard::Free => {
                self.standard = Standard::Taken;
                bounded(io::stdin().lock()).map_err(|e| format!("standard input: {}", reason(&e)))
            }
        }
    }
}

fn bounded(from: impl Read) -> io::Result<Vec<u8>> {
    let mut bytes = Vec::new();
    from.take(MOST).read_to_end(&mut bytes)?;
    Ok(bytes)
}

// Why a file could not be read, and what to do.
fn reason(e: &io::Error) -> String {
    match e.kind() {
        ErrorKind::NotFound => format!("there is no such file; {NAME_ONE}"),
        ErrorKind::IsADirectory => "this is a directory; name the files in it".into(),
        ErrorKind::PermissionDenied => "no permission to read it; allow that, or name another file".into(),
        _ => format!("it cannot be read ({e}); name another file"),
    }
}

// The bytes that hex digits say. Places are counted from 1, after 'hex:'.
fn hex(digits: &str) -> Result<Vec<u8>, String> {
    let mut bytes = Vec::new();
    let mut high: Option<(u8, usize)> = None;
    for (i, c) in digits.chars().enumerate() {
        let place = i + 1;
        if c.is_ascii_whitespace() {
            continue;
        }
        let Some(digit) = c.to_digit(16) else {
            return Err(format!(
                "hex: character {place} after 'hex:' is {c:?}; write two hex digits for each byte, and blanks between"
            ));
        };
        high = match high {
            None => Some((digit as u8, place)),
            Some((h, _)) => {
                bytes.push(h * 16 + digit as u8);
                None
            }
        };
    }
    match high {
        None => Ok(bytes),
        Some((_, place)) => Err(format!(
            "hex: the digit at character {place} after 'hex:' has no second one; each byte has two hex digits"
        )),
    }
}

#[cfg(test)]
mod tests {
    use super::*;

    #[test]
    fn hex_takes_blanks_anywhere_and_both_cases() {
        assert_eq!(hex(" 00 0 3\tfF"), Ok(vec![0, 3, 255]));
        assert_eq!(hex(""), Ok(vec![]));
    }

    #[test]
    fn hex_names_the_place_of_a_fault() {
        assert!(hex("00 0g")
            .unwrap_err()
            .contains("character 5 after 'hex:' is 'g'"));
        assert!(hex("00 0").unwrap_err().contains("digit at character 4"));
        assert!(hex("00\u{e9}").unwrap_err().contains("character 3"));
    }

    #[test]
    fn each_reason_says_what_to_do() {
        let told = |kind: ErrorKind| reason(&io::Error::from(kind));
        assert!(told(ErrorKind::PermissionDenied).starts_with("no permission to read it; "));
        assert!(told(ErrorKind::IsADirectory).ends_with("name the files in it"));
        assert!(told(ErrorKind::TimedOut).contains("timed out"));
    }

    #[test]
    fn no_more_than_the_bound_is_read() {
        assert_eq!(bounded(io::repeat(7)).unwrap().len() as u64, MOST);
    }
}
