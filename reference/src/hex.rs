//! Bytes as hexadecimal digits, two for each byte.

use std::fmt::Write;

/// The bytes in lower case.
pub fn encode(bytes: &[u8]) -> String {
    let mut digits = String::with_capacity(2 * bytes.len());
    for byte in bytes {
        write!(digits, "{byte:02x}").expect("a String takes every write");
    }
    digits
}

/// The bytes that the digits stand for; nothing if a digit is odd or out of place.
pub fn decode(digits: &str) -> Option<Vec<u8>> {
    let value = |digit: u8| char::from(digit).to_digit(16);
    digits
        .as_bytes()
        .chunks(2)
        .map(|pair| match pair {
            [high, low] => Some((value(*high)? << 4 | value(*low)?) as u8),
            _ => None,
        })
        .collect()
}

#[cfg(test)]
mod tests {
    use super::*;

    #[test]
    fn every_byte_comes_back() {
        let bytes: Vec<u8> = (0..=255).collect();
        assert_eq!(decode(&encode(&bytes)), Some(bytes));
        assert_eq!(encode(&[0x0f, 0xa0]), "0fa0");
    }

    #[test]
    fn odd_digits_and_other_characters_are_nothing() {
        assert_eq!(decode(""), Some(vec![]));
        for digits in ["0", "0g", "+1", "é"] {
            assert_eq!(decode(digits), None, "{digits}");
        }
    }
}
