//! Every place of short inputs.

use super::{Found, Holder, Rest, Runs, Setting, given};
use crate::bookmark::{NAMES, named};
use crate::call::{Call, under_all};
use crate::difference::Held;
use crate::model::ISSUE;
use crate::{cells, inputs};

/// Places beyond every input, some of which are others in 32 bits.
const BEYOND: [usize; 5] = [1 << 32, (1 << 32) + 1, 65_536, 1 << 31, usize::MAX];

/// The corners under all options, with the Rust's table in all rooms, and with zeros.
pub fn corners(runs: &Runs) -> Found {
    let list = given::all();
    runs.each(list.len() as u64, |holder, index| {
        for call in under_all(cells::rusts(), &list[index as usize]) {
            every_place(holder, index, call, all_rooms)?;
            every_place(holder, index, Call { cells: cells::zeros(), ..call }, rest)?;
        }
        Ok(())
    })
}

/// Every input of up to two bytes, under one pair of options.
pub fn to_two(runs: &Runs) -> Found {
    runs.each(inputs::TO_TWO, |holder, index| {
        let input = inputs::to_two(index);
        let call = under_all(cells::rusts(), &input)[index as usize % 4];
        every_place(holder, index, call, rest)
    })
}

/// Each place is set, the names coming round, and returned to at once; then two beyond the input;
/// then each name that is set is returned to once more, so that what was set later does not matter,
/// and one that is not.
pub fn every_place(
    holder: &mut Holder,
    index: u64,
    call: Call,
    goes_on: fn(&mut Holder, Call, u32) -> Held,
) -> Held {
    holder.begin(index);
    holder.read(call)?;
    for place in 0..=call.input.len() {
        let name = (place % NAMES) as u32;
        if holder.set(Setting::new(call, place, name))? {
            goes_on(holder, call, name)?;
        }
    }
    for place in [call.input.len() + 1, BEYOND[index as usize % BEYOND.len()]] {
        holder.set(Setting::new(call, place, 0))?;
    }
    again(holder, call)
}

/// Returns to each name that is set, and to one that is not.
pub fn again(holder: &mut Holder, call: Call) -> Held {
    let (set, unset): (Vec<u32>, Vec<u32>) =
        (0..NAMES as u32).partition(|&name| named(holder.store(), name)[0] == 1);
    set.iter().chain(unset.first()).try_for_each(|&name| rest(holder, call, name))
}

/// Returns in rooms that just suffice.
pub fn rest(holder: &mut Holder, call: Call, name: u32) -> Held {
    holder.go_on(Rest::new(call, name)).map(drop)
}

/// Returns in rooms that just suffice; with a byte less, which is 8 where there is one; with a
/// number less, and with an issue less but for a remainder, which are 9 where there is one; both;
/// with more. Then with other counts.
pub fn all_rooms(holder: &mut Holder, call: Call, name: u32) -> Held {
    let (issue, remainder) = (ISSUE as isize, call.input.len() as isize % ISSUE as isize);
    let beyond =
        [[0, 0], [-1, 0], [-1, 3], [0, -1], [0, remainder - issue], [-1, -1], [7, issue - 1]];
    for beyond in beyond {
        holder.go_on(Rest { beyond, ..Rest::new(call, name) })?;
    }
    for counts in [0, 1, 2, 3, 4, 7] {
        holder.go_on(Rest { counts, ..Rest::new(call, name) })?;
    }
    Ok(())
}
