//! Texts that are coded; and what is too long to be coded or decoded.

use super::{Found, Holder, Runs};
use crate::call::{Call, LONGEST, LONGEST_TEXT, under_all};
use crate::difference::Held;
use crate::random::Random;
use crate::tally::Sum;
use crate::texts::{self, Alphabet, samples};
use crate::{cells, titles};

pub fn corners(runs: &Runs) -> Found {
    let list: Vec<_> = texts::corners::all().collect();
    runs.each_of(&list, |holder, text| code(holder, text))
}

/// Every character that isdb-text codes, but for the marks, alone.
pub fn repertoire(runs: &Runs) -> Found {
    runs.each_of(&Alphabet::new(cells::rusts()).all(), |holder, c| {
        code(holder, c.to_string().as_bytes())
    })
}

/// Every pair of samples.
pub fn sequences(runs: &Runs) -> Found {
    runs.each(samples::count(2), |holder, index| {
        code(holder, samples::sequence(index, 2).as_bytes())
    })
}

/// The titles under all options, then random texts, each under one pair of options.
pub fn random(runs: &Runs) -> Found {
    let alphabet = Alphabet::new(cells::rusts());
    let titles = titles::texts();
    let mut sum = runs.each_of(&titles, |holder, title| code(holder, title.as_bytes()))?;
    sum.add(&runs.each(runs.amount.texts, |holder, index| {
        let mut random = Random::new(runs.seed, index);
        let text = texts::random(&mut random, &alphabet);
        holder.code(random.one_of(&under_all(cells::rusts(), &text)))
    })?);
    Ok(sum)
}

/// The longest input and text, and ones with a byte more.
pub fn too_long(runs: &Runs) -> Found {
    let (input, text) = (vec![0xA2; LONGEST + 1], " ".repeat(LONGEST_TEXT + 1));
    runs.each(1, |holder, _| {
        for call in under_all(cells::rusts(), &input) {
            holder.too_long(call, &text)?;
            holder.read(Call { input: &input[..LONGEST], ..call })?;
        }
        code(holder, &text.as_bytes()[..LONGEST_TEXT])
    })
}

fn code(holder: &mut Holder, text: &[u8]) -> Held {
    under_all(cells::rusts(), text).into_iter().try_for_each(|call| holder.code(call))
}
