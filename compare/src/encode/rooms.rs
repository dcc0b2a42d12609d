//! Rooms for the last text, and texts coded in them.

use super::Holder;
use crate::call::{Call, CodingRooms, under_all};
use crate::cells;
use crate::difference::Held;
use crate::random::Random;

/// So much more than is needed.
const AMPLE: CodingRooms = CodingRooms { store: 250, coding: 40 };
/// For a text that is refused in any rooms.
pub const SOME: CodingRooms = CodingRooms { store: 37, coding: 11 };

/// Exact ones first; 1 to 3 numbers more; ample ones; one number, one byte, and both less; nothing
/// of the one or the other; four numbers for each state, and one for each.
pub fn all(holder: &Holder) -> Vec<CodingRooms> {
    let exact = exact(holder);
    let CodingRooms { store, coding } = exact;
    let rooms = |store, coding| CodingRooms { store, coding };
    let mut list = vec![
        exact,
        rooms(store + 1, coding),
        rooms(store + 2, coding + 1),
        rooms(store + 3, coding),
        rooms(store + AMPLE.store, coding + AMPLE.coding),
    ];
    if store > 0 {
        list.extend([rooms(store - 1, coding), rooms(0, coding + AMPLE.coding)]);
    }
    if coding > 0 {
        list.extend([rooms(store, coding - 1), rooms(store + AMPLE.store, 0)]);
    }
    if store > 0 && coding > 0 {
        list.push(rooms(store - 1, coding - 1));
    }
    if let Ok(need) = holder.answer() {
        list.push(CodingRooms::older(need));
        list.extend((need.states < store).then_some(rooms(need.states, coding)));
    }
    list
}

/// What the last text needs.
pub fn exact(holder: &Holder) -> CodingRooms {
    holder.answer().map_or(SOME, CodingRooms::exact)
}

/// `arib_encode` in all rooms.
pub fn in_all(holder: &mut Holder, call: Call) -> Held {
    all(holder).into_iter().try_for_each(|rooms| holder.run(call, rooms))
}

/// `arib_encode` in exact rooms and in one of the others.
pub fn in_two(holder: &mut Holder, call: Call, random: &mut Random) -> Held {
    let list = all(holder);
    holder.run(call, list[0])?;
    let other = random.range(1, list.len() - 1);
    holder.run(call, list[other])
}

/// A text under all options in all rooms, by the Rust too.
pub fn under_all_options(holder: &mut Holder, text: &[u8]) -> Held {
    holder.tally.texts += 1;
    for call in under_all(cells::rusts(), text) {
        holder.code_both(call)?;
        in_all(holder, call)?;
    }
    Ok(())
}

/// A text under one pair of options in two rooms, by the Rust too.
pub fn under_one(holder: &mut Holder, text: &[u8], random: &mut Random) -> Held {
    holder.tally.texts += 1;
    let call = random.one_of(&under_all(cells::rusts(), text));
    holder.code_both(call)?;
    in_two(holder, call, random)
}
