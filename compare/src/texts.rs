//! Texts to code: corners, samples of every kind of character, random mixtures, faulty ones,
//! long ones.

pub mod alphabet;
pub mod corners;
pub mod faulty;
pub mod long;
pub mod samples;

pub use alphabet::Alphabet;

use crate::random::Random;

/// A random text: a mixture, now and then with a fault that question 4, 5 or 6 finds.
pub fn random(random: &mut Random, alphabet: &Alphabet) -> Vec<u8> {
    let length = length(random);
    let text = alphabet.mixture(random, length);
    if random.once_in(30) { faulty::faulty(random, &text) } else { text.into_bytes() }
}

/// Characters of a random text: mostly few, since the Rust's time grows faster than they do.
fn length(random: &mut Random) -> usize {
    match random.below(100) {
        0 => random.range(30, 60),
        1..=7 => random.range(16, 30),
        8..=29 => random.range(9, 15),
        _ => random.range(2, 8),
    }
}

/// As much of the text as has at most so many bytes.
pub fn cut(text: &str, bytes: usize) -> &str {
    &text[..text.floor_char_boundary(bytes)]
}
