//! The types that cross over to C, from their text.

/// A number, or a truth value: its name in Rattle, which is Rust's too, its name in C, and the numbers that it holds.
#[derive(Debug, PartialEq, Eq)]
pub struct Plain {
    pub rust: &'static str,
    pub c: &'static str,
    pub least: i128,
    pub most: i128,
}

const fn plain(rust: &'static str, c: &'static str, least: i128, most: i128) -> Plain {
    Plain { rust, c, least, most }
}

static PLAIN: [Plain; 10] = [
    plain("bool", "bool", 0, 0),
    plain("u8", "uint8_t", 0, u8::MAX as i128),
    plain("u16", "uint16_t", 0, u16::MAX as i128),
    plain("u32", "uint32_t", 0, u32::MAX as i128),
    plain("u64", "uint64_t", 0, u64::MAX as i128),
    plain("usize", "size_t", 0, u64::MAX as i128),
    plain("i8", "int8_t", i8::MIN as i128, i8::MAX as i128),
    plain("i16", "int16_t", i16::MIN as i128, i16::MAX as i128),
    plain("i32", "int32_t", i32::MIN as i128, i32::MAX as i128),
    plain("i64", "int64_t", i64::MIN as i128, i64::MAX as i128),
];

/// The number that a type is, if it is one.
pub fn number(text: &str) -> Option<&'static Plain> {
    plain_of(text).filter(|plain| plain.rust != "bool")
}

fn plain_of(text: &str) -> Option<&'static Plain> {
    PLAIN.iter().find(|plain| plain.rust == text)
}

/// A type as it is written in the source. A name and a length are found later.
#[derive(Debug, PartialEq, Eq)]
pub enum Written<'a> {
    Plain(&'static Plain),
    Array { of: &'static Plain, length: &'a str },
    Slice { of: &'static Plain, mutable: bool },
    Named(&'a str),
}

/// The type that a text says, or None where it is none that crosses over to C.
pub fn written(text: &str) -> Option<Written<'_>> {
    if let Some(plain) = plain_of(text) {
        return Some(Written::Plain(plain));
    }
    if let Some(lent) = text.strip_prefix('&') {
        let lent = match lent.split_once(' ') {
            Some((lifetime, rest)) if lifetime.starts_with('\'') => rest,
            _ => lent,
        };
        let (mutable, lent) = lent
            .strip_prefix("mut ")
            .map_or((false, lent), |rest| (true, rest));
        let of = plain_of(lent.strip_prefix('[')?.strip_suffix(']')?)?;
        return Some(Written::Slice { of, mutable });
    }
    if let Some(array) = text.strip_prefix('[') {
        let (of, length) = array.strip_suffix(']')?.split_once("; ")?;
        return Some(Written::Array {
            of: plain_of(of)?,
            length,
        });
    }
    let is_path = text.split("::").all(|name| {
        name.starts_with(|c: char| c.is_alphabetic()) && name.chars().all(|c| c.is_alphanumeric() || c == '_')
    });
    is_path.then_some(Written::Named(text))
}

#[cfg(test)]
mod tests {
    use super::*;

    fn byte() -> &'static Plain {
        number("u8").unwrap()
    }

    #[test]
    fn what_crosses_over() {
        let slice = |mutable| Some(Written::Slice { of: byte(), mutable });
        assert_eq!(written("u8"), Some(Written::Plain(byte())));
        assert_eq!(written("&[u8]"), slice(false));
        assert_eq!(written("&'a [u8]"), slice(false));
        assert_eq!(written("&mut [u8]"), slice(true));
        assert_eq!(written("&'b mut [u8]"), slice(true));
        assert_eq!(written("table::Refusal"), Some(Written::Named("table::Refusal")));
        let (of, length) = (byte(), "MOST");
        assert_eq!(written("[u8; MOST]"), Some(Written::Array { of, length }));
    }

    #[test]
    fn what_does_not() {
        for text in [
            "",
            "&u8",
            "&mut State",
            "[[u8; 2]; 2]",
            "[State; 2]",
            "&[State]",
            "Option<u8>",
            "(u8, u8)",
            "[u8]",
        ] {
            assert_eq!(written(text), None, "{text}");
        }
        assert_eq!(number("bool"), None);
    }
}
