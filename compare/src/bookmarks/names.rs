//! Names: all of them, set anew and returned to twice, beside others, and such as are none.

use super::{Found, Holder, Rest, Runs, Setting};
use crate::bookmark::{NAMES, STORE};
use crate::call::{Call, under_all};
use crate::cells;
use crate::difference::Held;

/// あ, a mark with い, a macro called twice, a repeat, a size, letters, an issue: many states.
const INPUT: [u8; 40] = [
    0xA2, 0x21, 0x2D, 0xA4, 0x1B, 0x2B, 0x20, 0x70, 0x95, 0x40, 0x21, 0xA6, 0xA0, 0x95, 0x4F, 0x1D,
    0x21, 0x98, 0x43, 0xA8, 0x89, 0x0E, 0x41, 0x42, 0xA0, 0x95, 0x40, 0x21, 0xAA, 0x95, 0x4F, 0x1D,
    0x21, 0x0F, 0x21, 0x2E, 0x21, 0x2F, 0x0D, 0xA2,
];

/// Names above 15, of which some are others in fewer bits.
const NONE: [u32; 6] = [16, 17, 256, 1 << 16, 1 << 31, u32::MAX];

/// How many counts are lent.
const COUNTS: [usize; 4] = [0, 1, 2, 7];

pub fn names(runs: &Runs) -> Found {
    runs.each(4, |holder, index| {
        let call = under_all(cells::rusts(), &INPUT)[index as usize];
        holder.begin(index);
        holder.read(call)?;
        all_names(holder, call)?;
        anew(holder, call)?;
        none(holder, call)
    })
}

/// Each name is unset, then set at another place; and returned to twice when all are.
fn all_names(holder: &mut Holder, call: Call) -> Held {
    let places = call.places();
    for name in 0..NAMES as u32 {
        holder.go_on(Rest::new(call, name))?;
        let place = places[(7 * name as usize + 3) % places.len()];
        holder.set(Setting::new(call, place, name))?;
        holder.go_on(Rest::new(call, name))?;
    }
    for name in (0..NAMES as u32).rev() {
        holder.go_on(Rest::new(call, name))?;
        holder.go_on(Rest::new(call, name))?;
    }
    Ok(())
}

/// Each name is set at every place in turn: nothing of the bookmark before is left. A refused set
/// between leaves it.
fn anew(holder: &mut Holder, call: Call) -> Held {
    for name in [0, 7, 15] {
        for place in call.places().into_iter().rev() {
            holder.set(Setting::new(call, place, name))?;
            holder.set(Setting::new(call, 2, name))?;
            holder.set(Setting { counts: 0, ..Setting::new(call, INPUT.len() + 1, name) })?;
            holder.go_on(Rest::new(call, name))?;
        }
    }
    Ok(())
}

/// Names that are none, before a wrong place and a store of another length; numbers of counts.
fn none(holder: &mut Holder, call: Call) -> Held {
    for name in NONE {
        for place in [0, 2, INPUT.len() + 1] {
            holder.set(Setting::new(call, place, name))?;
        }
        holder.go_on(Rest::new(call, name))?;
        holder.go_on(Rest { beyond: [30, 9], ..Rest::new(call, name) })?;
    }
    for counts in COUNTS {
        for place in [0, 2, 8] {
            holder.set(Setting { counts, ..Setting::new(call, place, 5) })?;
        }
        holder.go_on(Rest { counts, ..Rest::new(call, 5) })?;
        holder.go_on(Rest { counts, ..Rest::new(call, 16) })?;
    }
    lengths(holder, call)
}

/// Stores of other lengths, with each name.
fn lengths(holder: &mut Holder, call: Call) -> Held {
    let store = holder.store().to_vec();
    for length in [0, 1, 286, 287, 288, STORE - 287, STORE - 1, STORE + 1, STORE + 287, 2 * STORE] {
        for name in [0, 1, 15, 16] {
            let mut store = store.clone();
            store.resize(length, 0);
            holder.load(store);
            holder.set(Setting::new(call, 0, name))?;
            holder.go_on(Rest { beyond: [5, 7], ..Rest::new(call, name) })?;
        }
    }
    holder.load(store);
    Ok(())
}
