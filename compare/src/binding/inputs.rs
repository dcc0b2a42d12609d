//! Inputs that are decoded, keyed, asked for issues and measured, under all options unless said.

use super::{Found, Holder, Runs};
use crate::call::under_all;
use crate::difference::Held;
use crate::inputs::{self, long};
use crate::random::Random;
use crate::{cells, titles};

pub fn corners(runs: &Runs) -> Found {
    runs.each_of(&inputs::every_corner(), |holder, input| read(holder, input))
}

pub fn to_two(runs: &Runs) -> Found {
    runs.each(inputs::TO_TWO, |holder, index| read(holder, &inputs::to_two(index)))
}

pub fn random(runs: &Runs) -> Found {
    let titles = titles::all();
    runs.each(runs.amount.inputs, |holder, index| {
        read(holder, &inputs::random(&mut Random::new(runs.seed, index), &titles))
    })
}

/// Each under one pair of options.
pub fn long(runs: &Runs) -> Found {
    runs.each(long::COUNT, |holder, index| {
        let mut random = Random::new(!runs.seed, index);
        let input = long::long(&mut random, index);
        holder.read(random.one_of(&under_all(cells::rusts(), &input)))
    })
}

fn read(holder: &mut Holder, input: &[u8]) -> Held {
    under_all(cells::rusts(), input).into_iter().try_for_each(|call| holder.read(call))
}
