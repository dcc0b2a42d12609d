//! The corners, and every input of up to three bytes.

use super::rooms::{all_rooms, key_rooms};
use super::{Found, Runs};
use crate::call::{Call, Rooms, under_all};
use crate::model::ISSUE;
use crate::{cells, inputs};

/// The room for inputs of up to three bytes: 63 repeats of three bytes, and four issues.
const SMALL: Rooms = Rooms { text: 200, issues: 4 * ISSUE + 2 };

/// The corners under all options, with the Rust's table and with zeros, in all rooms.
pub fn corners(runs: &Runs) -> Found {
    runs.each_of(&inputs::every_corner(), |holder, input| {
        for call in under_all(cells::rusts(), input) {
            holder.read_both(call)?;
            all_rooms(holder, call)?;
            let call = Call { cells: cells::zeros(), ..call };
            holder.read(call);
            all_rooms(holder, call)?;
        }
        Ok(())
    })
}

/// Every input of up to two bytes.
pub fn to_two(runs: &Runs) -> Found {
    runs.each(inputs::TO_TWO, |holder, index| {
        for call in under_all(cells::rusts(), &inputs::to_two(index)) {
            holder.read_both(call)?;
            holder.run(call, SMALL)?;
            holder.exact(call)?;
            key_rooms(holder, call)?;
        }
        Ok(())
    })
}

/// Every input of three bytes.
pub fn three(runs: &Runs) -> Found {
    let every = runs.amount.every;
    runs.each((1 << 24) / every, |holder, index| {
        for call in under_all(cells::rusts(), &inputs::numbered(index * every, 3)[..3]) {
            holder.read_both(call)?;
            holder.run(call, SMALL)?;
            holder.exact(call)?;
        }
        Ok(())
    })
}
