//! Random inputs at every place, long ones at some, and other cell tables.

use super::places::{again, all_rooms, every_place, rest};
use super::{Found, Holder, Runs, Setting, given};
use crate::bookmark::NAMES;
use crate::call::{Call, LONGEST, OPTIONS};
use crate::difference::Held;
use crate::inputs::long;
use crate::random::Random;
use crate::{cells, titles};

/// Of inputs up to this length every place is set, of others some.
const SHORT: usize = 60;
/// So many.
const SOME: usize = 24;

/// How many inputs are read with one table.
const INPUTS: u64 = 20;

/// How many random inputs go with one long one.
const LONG: u64 = 400;

/// Random inputs under one pair of options.
pub fn random(runs: &Runs) -> Found {
    let titles = titles::all();
    runs.each(runs.amount.random, |holder, index| {
        let mut random = Random::new(runs.seed, index);
        let input = given::random(&mut random, &titles);
        let (initial, width) = random.one_of(&OPTIONS);
        let call = Call { cells: cells::rusts(), initial, width, input: &input };
        either(holder, &mut random, index, call)
    })
}

/// Zeros, then tables with odd cells: one input by such a table for four random ones.
pub fn tables(runs: &Runs) -> Found {
    let titles = titles::all();
    let total = (runs.amount.random / 4 / INPUTS).max(8);
    runs.each(total, |holder, index| {
        let mut random = Random::new(runs.seed ^ 0xCE11, index);
        let cells = cells::other(&mut random, index);
        for _ in 0..INPUTS {
            let input = given::random(&mut random, &titles);
            let (initial, width) = random.one_of(&OPTIONS);
            let call = Call { cells: &cells, initial, width, input: &input };
            either(holder, &mut random, index, call)?;
        }
        Ok(())
    })
}

/// Long inputs under one pair of options, at some places.
pub fn long(runs: &Runs) -> Found {
    let total = (runs.amount.random / LONG).clamp(4, long::COUNT);
    runs.each(total, |holder, index| {
        let mut random = Random::new(!runs.seed, index);
        let input = long::long(&mut random, index);
        let (initial, width) = random.one_of(&OPTIONS);
        let call = Call { cells: cells::rusts(), initial, width, input: &input };
        some_places(holder, &mut random, index, call, 3)
    })
}

/// Every place of a short input, some of another.
fn either(holder: &mut Holder, random: &mut Random, index: u64, call: Call) -> Held {
    if call.input.len() > SHORT {
        return some_places(holder, random, index, call, SOME);
    }
    let goes_on = if random.once_in(4) { all_rooms } else { rest };
    every_place(holder, index, call, goes_on)
}

/// Places where a step begins, one where none may, and the end; then each name.
fn some_places(
    holder: &mut Holder,
    random: &mut Random,
    index: u64,
    call: Call,
    count: usize,
) -> Held {
    holder.begin(index);
    holder.read(call)?;
    let places = call.places();
    let (any, end) = (random.below(LONGEST), call.input.len());
    let mut chosen: Vec<usize> = (0..count).map(|_| random.one_of(&places)).collect();
    chosen.extend([any % (end + 2), end]);
    for (n, place) in chosen.into_iter().enumerate() {
        let name = (n % NAMES) as u32;
        if holder.set(Setting::new(call, place, name))? {
            rest(holder, call, name)?;
        }
    }
    again(holder, call)
}
