//! Texts that question 4, 5 or 6 refuses, most of them.

use super::alphabet::mark;
use crate::inputs::damage;
use crate::random::Random;

/// Characters that no table has.
const WITHOUT: [char; 12] = [
    '\0',
    '\u{1}',
    '\t',
    '\r',
    '\\',
    '\u{7F}',
    '\u{E9}',
    '\u{303}',
    '\u{E000}',
    '\u{FFFD}',
    '\u{1F600}',
    '\u{10FFFF}',
];

/// A copy with one or two faults.
pub fn faulty(random: &mut Random, text: &str) -> Vec<u8> {
    let mut text = text.to_string();
    let which = random.below(4);
    if which != 1 {
        insert(random, &mut text, false);
    }
    if which != 0 {
        insert(random, &mut text, true);
    }
    if which == 3 { damage(random, text.as_bytes()) } else { text.into_bytes() }
}

/// Puts in a character without candidate, or a newline and a mark, at any place.
fn insert(random: &mut Random, text: &mut String, baseless: bool) {
    let place = text.floor_char_boundary(random.below(text.len() + 1));
    if !baseless {
        return text.insert(place, random.one_of(&WITHOUT));
    }
    text.insert(place, mark(random));
    if place > 0 && random.once_in(2) {
        text.insert(place, '\n');
    }
}

/// Bytes at the limits of what may stand in a sequence.
const LIMITS: [u8; 10] = [0x41, 0x7F, 0x80, 0x8F, 0x90, 0x9F, 0xA0, 0xBF, 0xC0, 0xFF];

/// Every first byte, then three at the limits; `index` is below `SEQUENCES`.
pub fn sequence(index: u64) -> Vec<u8> {
    let limit = |digit: u32| LIMITS[(index / 10u64.pow(digit) % 10) as usize];
    vec![(index / 1_000) as u8, limit(2), limit(1), limit(0)]
}

pub const SEQUENCES: u64 = 256 * 1_000;
