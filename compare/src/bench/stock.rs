//! The catalogues of the cases.

use crate::catalogue::given::any_bytes;
use crate::entries::{Entries, LONGEST, MOST};
use crate::random::Random;

/// What a catalogue holds.
#[derive(Clone, Copy, PartialEq, Eq)]
pub enum Stock {
    Empty,
    /// So many keys of 3 to 255 bytes at random, all different.
    Different(usize),
    /// As many entries as there can be, all with one key of 255 bytes.
    Equal,
    /// As many, with keys of 255 bytes that differ in the last two.
    Last,
}

impl Stock {
    /// The entries, numbered from 1 on, at most so many.
    pub fn entries(self, most: usize) -> Entries {
        let count = match self {
            Stock::Empty => 0,
            Stock::Different(count) => count,
            Stock::Equal | Stock::Last => MOST,
        };
        (0..count.min(most)).map(|n| (n as u32 + 1, self.key(n))).collect()
    }

    /// The key of this index; that of 1,024 is not held.
    pub fn key(self, n: usize) -> Vec<u8> {
        let alike = &[b'A'; LONGEST - 2][..];
        match self {
            Stock::Equal => [alike, if n < MOST { b"AA" } else { b"AB" }].concat(),
            Stock::Last => [alike, &[n / 32, n % 32].map(letter)].concat(),
            Stock::Empty | Stock::Different(_) => {
                let mut random = Random::new(0x570C, n as u64);
                let length = random.range(1, LONGEST - 2);
                [any_bytes(&mut random, length), (n as u16).to_be_bytes().to_vec()].concat()
            }
        }
    }
}

/// One of the letters from A to z.
fn letter(n: usize) -> u8 {
    b"ABCDEFGHIJKLMNOPQRSTUVWXYZabcdefghijklmnopqrstuvwxyz"[n]
}
