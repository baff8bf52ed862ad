//! Numbers as people read them.

/// A number with a comma before each three digits.
pub fn grouped(number: impl Into<u64>) -> String {
    let digits = number.into().to_string();
    let mut text = String::new();
    for (i, digit) in digits.chars().enumerate() {
        if i > 0 && (digits.len() - i).is_multiple_of(3) {
            text.push(',');
        }
        text.push(digit);
    }
    text
}

#[cfg(test)]
mod tests {
    use super::grouped;

    #[test]
    fn a_comma_before_each_three_digits() {
        assert_eq!(grouped(7_u32), "7");
        assert_eq!(grouped(65_536_u32), "65,536");
        assert_eq!(grouped(1_234_567_u64), "1,234,567");
    }
}
