//! What questions 1 to 3 refuse, and the longest input that they let through.

use super::places::all_rooms;
use super::{Found, Holder, Rest, Runs, Setting};
use crate::call::{Call, LONGEST, under_all};
use crate::cells;
use crate::difference::Held;
use crate::questions::{wrong_cells, wrong_lengths, wrong_options};

/// Tables, options and lengths, on a store with a bookmark and on such as have none, with names
/// that are none and places where no step begins.
pub fn questions(runs: &Runs) -> Found {
    let long = &vec![0xA2; LONGEST + 1][..];
    let one = &long[..1];
    runs.each(1, |holder, _| {
        holder.begin(0);
        let first = Call { cells: cells::rusts(), initial: 0, width: 0, input: one };
        holder.read(first)?;
        holder.set(Setting::new(first, 0, 3))?;
        wrong_cells(&[0x30, 0x21], |call, index| refused(holder, call, index))?;
        wrong_lengths(&[(0, one), (2, one), (2, long), (0, long)], |call| {
            refused(holder, call, 3)
        })?;
        wrong_options(&[&[], one, long], |call| refused(holder, call, 19))?;
        too_long(holder, long)
    })
}

/// Both calls, with a name and a place that go round.
fn refused(holder: &mut Holder, call: Call, index: usize) -> Held {
    holder.set(Setting::new(call, index % 4, (index % 18) as u32))?;
    let beyond = [(index % 40) as isize, (index % 9) as isize];
    holder.go_on(Rest { beyond, ..Rest::new(call, (index % 18) as u32) }).map(drop)
}

/// 65,536 bytes are refused before the name is, 65,535 are not.
fn too_long(holder: &mut Holder, long: &[u8]) -> Held {
    for call in under_all(cells::rusts(), long) {
        refused(holder, call, 3)?;
        refused(holder, call, 17)?;
    }
    for call in under_all(cells::rusts(), &long[..LONGEST]) {
        holder.read(call)?;
        for place in [0, 1, LONGEST - 1, LONGEST, LONGEST + 1] {
            if holder.set(Setting::new(call, place, 15))? {
                all_rooms(holder, call, 15)?;
            }
        }
    }
    Ok(())
}
