//! Inputs up to the longest that is let through.

use super::{Writer, bombs, damage, pieces};
use crate::call::LONGEST;
use crate::random::Random;

/// How many there are, and how many of them have the greatest length.
pub const COUNT: u64 = 50;
const FIXED: u64 = 10;

/// A long input; the first ones have the greatest length.
pub fn long(random: &mut Random, index: u64) -> Vec<u8> {
    let length = if index < FIXED { LONGEST } else { random.range(5_000, LONGEST) };
    let mut input = match index {
        0 => [0x30, 0x21].repeat(LONGEST),
        1 => vec![0xA2; LONGEST],
        2 => bombs::called(&[0xA2; 65], LONGEST),
        3 => bombs::chain(&[&[0xA2], &[0x21; 32]], LONGEST),
        4 => bombs::chain(&[&[], &[0x21; 64]], LONGEST),
        5 => [0x98, 0x7F, 0xA2].repeat(LONGEST),
        6 => [0x21, 0x2D].repeat(LONGEST),
        7 => [0x1B, 0x21, 0x40].repeat(LONGEST),
        8 => [0x98, 0x7F, 0x7C, 0x3A, 0xA2].repeat(LONGEST),
        9 => bombs::chain(&[&bombs::PRIVATE_USE, &[0x21; 8]], LONGEST),
        _ => some(random, length),
    };
    input.truncate(length);
    input
}

/// Pieces, sound or damaged; once in a while macros, which read the input many times over.
fn some(random: &mut Random, length: usize) -> Vec<u8> {
    match random.below(4) {
        0 => {
            let whole = pieces(random, length);
            damage(random, &whole)
        }
        1 => {
            let length = length.min(6_000);
            let mut writer = Writer::new(random);
            writer.bomb(length);
            writer.done()
        }
        _ => pieces(random, length),
    }
}

/// The greatest text: a repeat of 63 in a macro's body that the whole budget goes to.
pub fn greatest_text() -> Vec<u8> {
    bombs::called(&[0x98, 0x7F, 0xA2].repeat(22), LONGEST)
}

/// The most issues: every byte of such a body is an undefined control.
pub fn most_issues() -> Vec<u8> {
    bombs::called(&[0xA0; 65], LONGEST)
}
