//! Inputs: all short ones, corners, random ones built from pieces, long ones.

pub mod bombs;
pub mod corners;
mod damage;
pub mod long;
mod pieces;
mod waiting;
pub mod ways;
mod writer;

pub use damage::damage;
pub use writer::Writer;

use crate::random::Random;

/// A random input: pieces, a damaged copy of pieces or of a good string, macros that spend their
/// budget, or a good string with characters of two bytes behind it.
pub fn random(random: &mut Random, good: &[Vec<u8>]) -> Vec<u8> {
    let length = length(random);
    match random.below(40) {
        0..=3 => {
            let copied = random.below(good.len());
            damage(random, &good[copied])
        }
        4..=11 => {
            let whole = pieces(random, length);
            damage(random, &whole)
        }
        12 => {
            let mut writer = Writer::new(random);
            writer.bomb(length.min(200));
            writer.done()
        }
        13..=15 => {
            let copied = random.below(good.len());
            let mut writer = Writer::new(random);
            writer.put(&good[copied]);
            writer.by_a_way();
            writer.done()
        }
        _ => pieces(random, length),
    }
}

/// Pieces up to about this length, the last one often cut.
pub fn pieces(random: &mut Random, length: usize) -> Vec<u8> {
    let mut writer = Writer::new(random);
    writer.setting();
    writer.pieces(length);
    let mut input = writer.done();
    if random.once_in(2) {
        input.truncate(length);
    }
    input
}

/// Mostly short, once in a while some thousand bytes.
fn length(random: &mut Random) -> usize {
    match random.below(1_000) {
        0 => random.range(600, 5_000),
        1..=29 => random.range(120, 600),
        30..=299 => random.range(24, 120),
        _ => random.range(1, 24),
    }
}

/// How many inputs have at most two bytes.
pub const TO_TWO: u64 = 1 + (1 << 8) + (1 << 16);

/// The input of this index among those, the shortest first.
pub fn to_two(index: u64) -> Vec<u8> {
    match index {
        0 => vec![],
        1..=0x100 => numbered(index - 1, 1)[..1].to_vec(),
        _ => numbered(index - 0x101, 2)[..2].to_vec(),
    }
}

/// 01's table, the corners, small spent budgets, and 92-26, a private-use character, by every way.
pub fn every_corner() -> Vec<Vec<u8>> {
    let corners = corners::table().chain(corners::corners()).map(|(_, _, input)| input);
    corners.chain(bombs::small()).chain(ways::every([0x7C, 0x3A])).collect()
}

/// The input of this index among those of `length` bytes, at most 4.
pub fn numbered(index: u64, length: usize) -> [u8; 4] {
    let mut bytes = [0; 4];
    bytes[..length].copy_from_slice(&index.to_be_bytes()[8 - length..]);
    bytes
}

/// All 8,836 two-byte codes of GL, row by row.
pub fn every_pair() -> Vec<[u8; 2]> {
    let cells = |row| (0x21..=0x7E).map(move |cell| [row, cell]);
    (0x21..=0x7E).flat_map(cells).collect()
}
