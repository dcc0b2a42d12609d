//! Keys, as 01 and requests 1 and 6 tell them.

use crate::model::Reading;

/// A text without newline, U+0020 and U+3000, its full-width alphanumerics made half-width.
pub fn key(text: &str) -> String {
    text.chars().filter(|c| !matches!(c, '\n' | ' ' | '\u{3000}')).map(halfwidth).collect()
}

/// The alphanumeric whose full-width form this is, or the character itself.
pub fn halfwidth(c: char) -> char {
    match c {
        '\u{FF3C}' => c,
        '\u{FF01}'..='\u{FF5E}' => char::from((u32::from(c) - 0xFEE0) as u8),
        '\u{FFE5}' => '\u{A5}',
        _ => c,
    }
}

/// Questions 8, 10 and 11 of a key: the refusal's number, or 0. The room is for the text before
/// removal.
pub fn questions(room: usize, reading: &Reading) -> u32 {
    if reading.text.len() > room {
        8
    } else if !reading.issues.is_empty() {
        10
    } else if reading.private_use() > 0 {
        11
    } else {
        0
    }
}

/// The key of a reading, and its charge; of a refused call nothing.
pub fn of(number: u32, reading: &Reading) -> (String, usize) {
    if number != 0 {
        return Default::default();
    }
    (key(reading.as_str()), reading.charge)
}
