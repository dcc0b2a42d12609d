//! Titles, keys, numbers and entries to give.

use std::collections::BTreeSet;

use crate::entries::{Entries, LONGEST};
use crate::random::Random;

/// Letters of the alphanumeric set, full-width or, behind MSZ, half-width; their key is the letters.
pub fn letters(narrow: bool, letters: &[u8]) -> Vec<u8> {
    let size: &[u8] = if narrow { &[0x89] } else { &[] };
    [size, &[0x0E], letters].concat()
}

/// As many of the letter A.
pub fn repeated(narrow: bool, count: usize) -> Vec<u8> {
    letters(narrow, &b"A".repeat(count))
}

/// A title with this key, if that is of letters alone.
pub fn title(random: &mut Random, key: &[u8]) -> Option<Vec<u8>> {
    let alone = key.iter().all(u8::is_ascii_alphabetic);
    alone.then(|| letters(random.once_in(2), key))
}

/// An undefined control, which is an issue; LS0 and 92-26, a private-use character.
pub const ISSUE: [u8; 1] = [0xA0];
pub const PRIVATE_USE: [u8; 3] = [0x0F, 0x7C, 0x3A];

/// A macro of one kana that is called twice: its charge is 2.
pub const MACRO: [u8; 14] =
    [0x95, 0x40, 0x21, 0xA2, 0x95, 0x4F, 0x1B, 0x2B, 0x20, 0x70, 0x1D, 0x21, 0x1D, 0x21];

/// Lengths of keys at the limits, and far beyond.
pub const LENGTHS: [usize; 8] = [0, 1, 2, LONGEST - 1, LONGEST, LONGEST + 1, 400, 70_000];

/// So many numbers, now and then with the least and the greatest, of all sizes or small.
pub fn numbers(random: &mut Random, count: usize) -> Vec<u32> {
    let small = random.once_in(2);
    let mut numbers = BTreeSet::new();
    if random.once_in(3) {
        numbers.extend([0, u32::MAX].into_iter().take(count));
    }
    while numbers.len() < count {
        let number = random.number() as u32;
        numbers.insert(if small { number % (2 * count as u32) } else { number });
    }
    numbers.into_iter().collect()
}

/// Any bytes, so many.
pub fn any_bytes(random: &mut Random, length: usize) -> Vec<u8> {
    (0..length).map(|_| random.byte(0, 0xFF)).collect()
}

/// So many entries, whose keys are any bytes, of few different lengths or of all; some of them
/// doubled.
pub fn entries(random: &mut Random, count: usize) -> Entries {
    let longest = random.one_of(&[1, 3, 40, LONGEST]);
    let mut keys: Vec<Vec<u8>> = Vec::new();
    for n in 0..count {
        let key = if n > 0 && random.once_in(4) {
            keys[random.below(n)].clone()
        } else {
            let length = random.range(0, longest);
            any_bytes(random, length)
        };
        keys.push(key);
    }
    numbers(random, count).into_iter().zip(keys).collect()
}
