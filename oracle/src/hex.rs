//! Bytes as hexadecimal digits.

const DIGITS: &[u8; 16] = b"0123456789ABCDEF";

/// Appends two digits a byte.
pub fn push(out: &mut String, bytes: &[u8]) {
    for b in bytes {
        out.push(char::from(DIGITS[usize::from(b >> 4)]));
        out.push(char::from(DIGITS[usize::from(b & 15)]));
    }
}

/// Appends the bytes that the digits write; `None` for an odd digit or another sign.
pub fn parse(out: &mut Vec<u8>, digits: &str) -> Option<()> {
    let pairs = digits.as_bytes().chunks_exact(2);
    if !pairs.remainder().is_empty() {
        return None;
    }
    for pair in pairs {
        out.push(digit(pair[0])? << 4 | digit(pair[1])?);
    }
    Some(())
}

fn digit(sign: u8) -> Option<u8> {
    let value = char::from(sign).to_digit(16)?;
    Some(value as u8)
}
