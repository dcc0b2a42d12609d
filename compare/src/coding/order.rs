//! The text's characters in the order in which they are coded; questions 4 and 5.

use oracle::coding::{Refusal, refusal};

use crate::model::tables::is_mark;

/// Each character with its byte place, the marks before their base in the order of the text.
pub fn order(text: &[u8]) -> Result<Vec<(usize, char)>, Refusal> {
    let characters = characters(text)?;
    let mut order = Vec::with_capacity(characters.len());
    let mut rest = &characters[..];
    while let Some((&(place, c), after)) = rest.split_first() {
        if is_mark(c) {
            return Err(refusal(5, place));
        }
        let marks = if c == '\n' { 0 } else { leading_marks(after) };
        order.extend_from_slice(&after[..marks]);
        order.push((place, c));
        rest = &after[marks..];
    }
    Ok(order)
}

/// With how many marks the characters begin.
fn leading_marks(characters: &[(usize, char)]) -> usize {
    characters.iter().take_while(|(_, c)| is_mark(*c)).count()
}

/// The characters of well-formed UTF-8, or 4 where the first faulty sequence begins.
fn characters(text: &[u8]) -> Result<Vec<(usize, char)>, Refusal> {
    let mut characters = Vec::with_capacity(text.len());
    let mut place = 0;
    while place < text.len() {
        let (c, length) = sequence(&text[place..]).ok_or(refusal(4, place))?;
        characters.push((place, c));
        place += length;
    }
    Ok(characters)
}

/// The well-formed sequence with which the bytes begin, and its length.
fn sequence(bytes: &[u8]) -> Option<(char, usize)> {
    let first = bytes[0];
    let length = match first {
        0x00..=0x7F => return Some((char::from(first), 1)),
        0xC2..=0xDF => 2,
        0xE0..=0xEF => 3,
        0xF0..=0xF4 => 4,
        _ => return None,
    };
    let tail = bytes.get(1..length)?;
    if !second(first).contains(&tail[0]) || !tail.iter().all(|byte| byte & 0xC0 == 0x80) {
        return None;
    }
    let head = u32::from(first) & (0x7F >> length);
    let scalar = tail.iter().fold(head, |scalar, byte| scalar << 6 | u32::from(byte & 0x3F));
    Some((char::from_u32(scalar)?, length))
}

/// What may follow the first byte: no longer form than needed, no surrogate, nothing past
/// U+10FFFF.
fn second(first: u8) -> std::ops::RangeInclusive<u8> {
    match first {
        0xE0 => 0xA0..=0xBF,
        0xED => 0x80..=0x9F,
        0xF0 => 0x90..=0xBF,
        0xF4 => 0x80..=0x8F,
        _ => 0x80..=0xBF,
    }
}
