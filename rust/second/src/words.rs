//! The words of a command line: bytes in hex and decimal numbers, in and out, and the digest.

/// `hex:` followed by an even number of hex digits, as bytes.
pub fn bytes(word: &str) -> Option<Vec<u8>> {
    let digits = word.strip_prefix("hex:")?.as_bytes();
    if digits.len() % 2 != 0 {
        return None;
    }
    let pairs = digits.chunks(2);
    pairs
        .map(|pair| Some(digit(pair[0])? * 16 + digit(pair[1])?))
        .collect()
}

fn digit(letter: u8) -> Option<u8> {
    match letter {
        b'0'..=b'9' => Some(letter - b'0'),
        b'a'..=b'f' => Some(letter - b'a' + 10),
        b'A'..=b'F' => Some(letter - b'A' + 10),
        _ => None,
    }
}

/// Bytes as hex digits in lower case without blanks.
pub fn hex(bytes: &[u8]) -> String {
    let digits = b"0123456789abcdef";
    let mut text = String::with_capacity(bytes.len() * 2);
    for byte in bytes {
        text.push(char::from(digits[usize::from(byte / 16)]));
        text.push(char::from(digits[usize::from(byte % 16)]));
    }
    text
}

/// A decimal number, 0 to 2^64 - 1. Only digits: the library's own reading takes a plus sign.
pub fn number(word: &str) -> Option<u64> {
    if !word.bytes().all(|letter| letter.is_ascii_digit()) {
        return None;
    }
    word.parse().ok()
}

/// The digest before any byte: FNV-1a, 64 bits.
pub const DIGEST: u64 = 0xcbf2_9ce4_8422_2325;

/// The digest after some more bytes.
pub fn digest(before: u64, bytes: &[u8]) -> u64 {
    let mut digest = before;
    for byte in bytes {
        digest ^= u64::from(*byte);
        digest = digest.wrapping_mul(0x0000_0100_0000_01b3);
    }
    digest
}
