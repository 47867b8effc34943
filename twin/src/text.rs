//! Numbers and bytes as house and traces write them.

use std::fmt;

/// "decimal numbers without leading zeros or plus sign", below 2^64.
pub fn decimal(word: &str) -> Option<u64> {
    let digits = word.bytes().all(|b| b.is_ascii_digit());
    let leading_zero = word.len() > 1 && word.starts_with('0');
    if digits && !leading_zero {
        word.parse().ok()
    } else {
        None
    }
}

/// A signed 16-bit number, "never "-0"".
pub fn signed(word: &str) -> Option<i16> {
    let value = match word.strip_prefix('-') {
        None => i64::try_from(decimal(word)?).ok()?,
        Some("0") => return None,
        Some(digits) => -i64::try_from(decimal(digits)?).ok()?,
    };
    i16::try_from(value).ok()
}

/// Pairs of hexadecimal digits 0..9 A..F; `none` stands for no bytes.
pub fn hexadecimal(word: &str) -> Option<Vec<u8>> {
    if word == "none" {
        return Some(Vec::new());
    }
    if word.is_empty() || !word.len().is_multiple_of(2) {
        return None;
    }
    let pairs = word.as_bytes().chunks_exact(2);
    pairs
        .map(|pair| Some(digit(pair[0])? << 4 | digit(pair[1])?))
        .collect()
}

fn digit(byte: u8) -> Option<u8> {
    match byte {
        b'0'..=b'9' => Some(byte - b'0'),
        b'A'..=b'F' => Some(byte - b'A' + 10),
        _ => None,
    }
}

/// Bytes to be printed as `hexadecimal` reads them.
pub struct Hex<'a>(pub &'a [u8]);

impl fmt::Display for Hex<'_> {
    fn fmt(&self, f: &mut fmt::Formatter<'_>) -> fmt::Result {
        if self.0.is_empty() {
            return f.write_str("none");
        }
        const DIGITS: &[u8; 16] = b"0123456789ABCDEF";
        let digits = self.0.iter().flat_map(|byte| [byte >> 4, byte & 15]);
        let text: String = digits.map(|d| char::from(DIGITS[usize::from(d)])).collect();
        f.write_str(&text)
    }
}
