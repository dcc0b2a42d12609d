//! Single characters: those of the repertoire, and all.

use super::rooms::{under_all_options, under_one};
use super::{Found, Runs};
use crate::cells;
use crate::random::Random;
use crate::texts::Alphabet;

/// Every character of the Kanji set, the additional symbols, the one-byte tables and their
/// full-width forms, SP, U+3000 and newline, alone, under all options, in all rooms.
pub fn repertoire(runs: &Runs) -> Found {
    runs.each_of(&Alphabet::new(cells::rusts()).all(), |holder, c| {
        under_all_options(holder, c.to_string().as_bytes())
    })
}

/// Every Unicode scalar value alone, under one pair of options.
pub fn every(runs: &Runs) -> Found {
    let every = runs.amount.every;
    runs.each(u64::from(u32::from(char::MAX) + 1) / every, |holder, index| {
        let Some(c) = char::from_u32((index * every) as u32) else { return Ok(()) };
        let mut random = Random::new(runs.seed ^ 0xE4, index);
        under_one(holder, c.to_string().as_bytes(), &mut random)
    })
}
