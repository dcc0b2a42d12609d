//! Random inputs, and long ones.

use super::rooms::{all_rooms, ample};
use super::{Found, Holder, Runs};
use crate::call::{Call, OPTIONS, under_all};
use crate::inputs::{self, long};
use crate::random::Random;
use crate::tally::Sum;
use crate::{cells, titles};

/// Random inputs under all options with ample and exact rooms, and under one of them in all rooms.
pub fn random(runs: &Runs) -> Found {
    let titles = titles::all();
    runs.each(runs.amount.random, |holder, index| {
        let mut random = Random::new(runs.seed, index);
        let input = inputs::random(&mut random, &titles);
        let tight = random.below(OPTIONS.len());
        for (n, call) in under_all(cells::rusts(), &input).into_iter().enumerate() {
            holder.read_both(call)?;
            holder.run(call, ample(holder, &mut random))?;
            if n == tight { all_rooms(holder, call)? } else { holder.exact(call)? }
        }
        Ok(())
    })
}

/// Long inputs under all options; on request the greatest ones under Caption.
pub fn long(runs: &Runs) -> Found {
    let mut sum = runs.each(long::COUNT, |holder, index| {
        let input = long::long(&mut Random::new(!runs.seed, index), index);
        for call in under_all(cells::rusts(), &input) {
            holder.read_both(call)?;
            all_rooms(holder, call)?;
        }
        Ok(())
    })?;
    if runs.amount.greatest {
        let list = [long::greatest_text(), long::most_issues()];
        let one = |holder: &mut Holder, input: &Vec<u8>| {
            let call = Call { cells: cells::rusts(), initial: 1, width: 0, input };
            holder.read_both(call)?;
            holder.exact(call)
        };
        sum.add(&runs.each(1, |holder, _| list.iter().try_for_each(|input| one(holder, input)))?);
    }
    Ok(sum)
}
