//! Returns over another input, under other options or with another cell table than at the setting.

use super::{Found, Holder, Rest, Runs, Setting, given};
use crate::bookmark::NAMES;
use crate::call::{Call, OPTIONS};
use crate::difference::Held;
use crate::inputs;
use crate::random::Random;
use crate::{cells, titles};

/// Bookmarks of one input, returned to over others: unlike it, a damaged copy, the same cut or made
/// longer, and the same with other options or another table.
pub fn others(runs: &Runs) -> Found {
    let titles = titles::all();
    runs.each(runs.amount.random, |holder, index| {
        let mut random = Random::new(runs.seed ^ 0x07E4, index);
        let input = given::short(&mut random, &titles);
        let (initial, width) = random.one_of(&OPTIONS);
        let call = Call { cells: cells::rusts(), initial, width, input: &input };
        holder.begin(index);
        holder.read(call)?;
        let places = call.places();
        for name in 0..4 {
            holder.set(Setting::new(call, random.one_of(&places), name))?;
        }
        let (other, damaged) = (given::short(&mut random, &titles), changed(&mut random, &input));
        let (initial, width) = random.one_of(&OPTIONS);
        for input in [&other, &damaged, &input] {
            each(holder, Call { input, initial, width, ..call })?;
            each(holder, Call { input, ..call })?;
        }
        let table = cells::other(&mut random, index % 8);
        each(holder, Call { cells: &table, ..call })
    })
}

/// A copy that is damaged, cut or made longer.
fn changed(random: &mut Random, input: &[u8]) -> Vec<u8> {
    let mut copy = input.to_vec();
    match random.below(3) {
        0 => return inputs::damage(random, input),
        1 => copy.truncate(random.below(input.len() + 1)),
        _ => copy.extend_from_within(random.below(input.len() + 1)..),
    }
    copy
}

/// Returns to each bookmark, and to one that is not set.
fn each(holder: &mut Holder, call: Call) -> Held {
    let store = holder.store().to_vec();
    holder.load(store);
    for name in [0, 1, 2, 3, NAMES as u32 - 1] {
        holder.go_on(Rest { beyond: [0, name as isize], ..Rest::new(call, name) })?;
    }
    Ok(())
}
