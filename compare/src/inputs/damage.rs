//! Damaged copies of good strings.

use crate::random::Random;

/// A copy with one to three bytes or stretches changed, removed, doubled or put in, or its
/// tail cut.
pub fn damage(random: &mut Random, good: &[u8]) -> Vec<u8> {
    let mut copy = good.to_vec();
    for _ in 0..random.range(1, 3) {
        if copy.is_empty() {
            break;
        }
        let at = random.below(copy.len());
        let end = at + random.below((copy.len() - at).min(6)) + 1;
        let byte = random.byte(0, 0xFF);
        match random.below(6) {
            0 => copy[at] = byte,
            1 => copy[at] ^= 1 << random.below(8),
            2 => copy.insert(at, byte),
            3 => drop(copy.drain(at..end)),
            4 => copy.extend_from_within(at..end),
            _ => copy.truncate(at),
        }
    }
    copy
}
