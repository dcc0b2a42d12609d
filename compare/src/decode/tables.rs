//! Other cell tables that question 1 lets through, against the model.

use super::rooms::{all_rooms, count_rooms, key_rooms};
use super::{Found, Holder, Runs};
use crate::call::{Call, OPTIONS};
use crate::difference::Held;
use crate::inputs::ways;
use crate::random::Random;
use crate::{cells, inputs, titles};

/// How many inputs are read with one table.
const INPUTS: u64 = 100;

/// Zeros, then tables with odd cells: one input by such a table for twenty random ones.
pub fn tables(runs: &Runs) -> Found {
    let titles = titles::all();
    let total = (runs.amount.random / 20 / INPUTS).max(20);
    runs.each(total, |holder, index| {
        let mut random = Random::new(runs.seed ^ 0xCE11, index);
        let cells = cells::other(&mut random, index);
        for _ in 0..INPUTS {
            let input = inputs::random(&mut random, &titles);
            let (initial, width) = random.one_of(&OPTIONS);
            let call = Call { cells: &cells, initial, width, input: &input };
            holder.read(call);
            all_rooms(holder, call)?;
        }
        every_cell(holder, &cells, index as usize)
    })
}

/// All 8,836 two-byte codes in one string: by the Kanji set, by plane 1, and by one of all ways,
/// which come round from table to table.
fn every_cell(holder: &mut Holder, cells: &[u16], index: usize) -> Held {
    let pairs = inputs::every_pair();
    let plane_1 = [&[0x1B, 0x24, 0x39], pairs.as_flattened()].concat();
    for input in [pairs.concat(), plane_1, ways::nth(index, &pairs)] {
        let call = Call { cells, initial: 0, width: 0, input: &input };
        holder.read(call);
        holder.exact(call)?;
        key_rooms(holder, call)?;
        count_rooms(holder, call)?;
    }
    Ok(())
}
