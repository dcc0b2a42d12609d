//! How far one control or escape reaches, before anything is done with it.

/// The bytes that a control or escape takes of what is left.
pub enum Extent {
    /// So many bytes, whole.
    Whole(usize),
    /// The parameters are not all there: Truncated, and all the rest is used.
    Short,
    /// MalformedControl, and so many bytes are used.
    Malformed(usize),
    /// UndefinedControl; one byte is used.
    Undefined,
}

use Extent::{Malformed, Short, Undefined, Whole};

/// The extent of the control or escape with which `rest` begins.
pub fn of(rest: &[u8]) -> Extent {
    match rest[0] {
        0x00 | 0x07..=0x0F | 0x18 | 0x1E | 0x1F | 0x20 | 0x7F => Whole(1),
        0x80..=0x8A | 0x99 | 0x9A => Whole(1),
        0x16 | 0x8B | 0x91 | 0x93 | 0x94 | 0x97 | 0x98 => within(rest, 2),
        0x1C => within(rest, 3),
        0x90 | 0x92 => colour(rest),
        0x1B => escape(rest),
        0x95 => definition(rest),
        0x9B => control_sequence(rest),
        0x9D => time(rest),
        _ => Undefined,
    }
}

fn within(rest: &[u8], length: usize) -> Extent {
    if length <= rest.len() { Whole(length) } else { Short }
}

/// COL and CDC: a parameter 20 has another after it.
fn colour(rest: &[u8]) -> Extent {
    within(rest, if rest.get(1) == Some(&0x20) { 3 } else { 2 })
}

/// ESC, intermediates 20 to 2F, a final byte 30 to 7E; any other byte stays unread.
fn escape(rest: &[u8]) -> Extent {
    match past(rest, 1, 0x20..=0x2F) {
        None => Short,
        Some(place) => Whole(place + usize::from(matches!(rest[place], 0x30..=0x7E))),
    }
}

/// CSI, parameters 20 to 3F, a final byte 40 to 7E; any other byte stays unread.
fn control_sequence(rest: &[u8]) -> Extent {
    match past(rest, 1, 0x20..=0x3F) {
        None => Short,
        Some(place) if matches!(rest[place], 0x40..=0x7E) => Whole(place + 1),
        Some(place) => Malformed(place),
    }
}

/// TIME: 20 or 28 and a parameter, or 29 and a sequence, which may lack its final byte.
fn time(rest: &[u8]) -> Extent {
    match rest.get(1) {
        None => Short,
        Some(0x20 | 0x28) => within(rest, 3),
        Some(0x29) => match past(rest, 2, 0x20..=0x3F) {
            None => Short,
            Some(place) => Whole(place + usize::from(matches!(rest[place], 0x40..=0x7E))),
        },
        Some(_) => Malformed(2),
    }
}

/// MACRO: 4F alone, or 40 or 41, a code, a body and the first 95 4F after it.
fn definition(rest: &[u8]) -> Extent {
    match rest.get(1) {
        None => Short,
        Some(0x4F) => Whole(2),
        Some(0x40 | 0x41) => {
            match (3..rest.len()).find(|&i| rest[i..].starts_with(&[0x95, 0x4F])) {
                None => Short,
                Some(end) => Whole(end + 2),
            }
        }
        Some(_) => Malformed(2),
    }
}

/// The first place from `start` on whose byte is not in the range.
fn past(rest: &[u8], start: usize, range: std::ops::RangeInclusive<u8>) -> Option<usize> {
    (start..rest.len()).find(|&i| !range.contains(&rest[i]))
}
