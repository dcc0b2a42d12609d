//! The titles and random texts, and long ones.

use super::rooms::{self, in_all, in_two, under_all_options};
use super::{Found, Runs};
use crate::call::{Call, LONGEST_TEXT, under_all};
use crate::random::Random;
use crate::tally::Sum;
use crate::texts::{self, Alphabet, long};
use crate::{cells, titles};

/// Of the random texts one in so many is coded in all rooms.
const ALL_ROOMS: usize = 8;

/// The titles under all options, then random texts, each under one pair of options.
pub fn random(runs: &Runs) -> Found {
    let alphabet = Alphabet::new(cells::rusts());
    let titles = titles::texts();
    let mut sum =
        runs.each_of(&titles, |holder, title| under_all_options(holder, title.as_bytes()))?;
    sum.add(&runs.each(runs.amount.random, |holder, index| {
        let mut random = Random::new(runs.seed, index);
        let text = texts::random(&mut random, &alphabet);
        holder.tally.texts += 1;
        let call = random.one_of(&under_all(cells::rusts(), &text));
        holder.code_both(call)?;
        if random.once_in(ALL_ROOMS) {
            in_all(holder, call)
        } else {
            in_two(holder, call, &mut random)
        }
    })?);
    Ok(sum)
}

/// Long texts, each under one pair of options, those that are not random under CharacterSize,
/// since AnnexE refuses some; on request the one that needs the greatest store.
pub fn long(runs: &Runs) -> Found {
    let alphabet = Alphabet::new(cells::rusts());
    let mut sum = runs.each(long::COUNT, |holder, index| {
        let mut random = Random::new(!runs.seed, index);
        let text = long::long(&mut random, &alphabet, index);
        holder.tally.texts += 1;
        let mut call = random.one_of(&under_all(cells::rusts(), &text));
        if index < long::FIXED {
            call.width = 0;
        }
        holder.code_both(call)?;
        in_two(holder, call, &mut random)
    })?;
    if runs.amount.greatest {
        let text = long::newlines(LONGEST_TEXT).into_bytes();
        sum.add(&runs.each(1, |holder, _| {
            holder.tally.texts += 1;
            let call = Call { cells: cells::rusts(), initial: 0, width: 0, input: &text };
            holder.code_both(call)?;
            holder.run(call, rooms::exact(holder))
        })?);
    }
    Ok(sum)
}
