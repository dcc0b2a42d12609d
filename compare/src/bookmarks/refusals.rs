//! The order of the refusals: everything that can be wrong with either call, alone and together.

use super::{Found, Holder, Rest, Runs, Setting, given};
use crate::bookmark::{CHARGE, LENGTHS, NUMBERS, PLACE, REPEAT, STORE, TEXT, named_mut};
use crate::call::{Call, LONGEST};
use crate::cells;
use crate::difference::Held;

/// How many things can be wrong beside the store, and how many stores there are.
const WRONG: u32 = 9;
const STORES: u64 = 9;

/// The bookmark of a call, and one that is not set.
const NAME: u32 = 6;
const UNSET: u32 = 9;

/// Every set of them, on every store: the cell table, an option, the input's length, the name, a
/// name that is not set, more than sixteen marks, a place where no step begins, the text's room,
/// the issues' room.
pub fn refusals(runs: &Runs) -> Found {
    runs.each(STORES << WRONG, |holder, index| {
        let is = |thing: u32| index >> thing & 1 == 1;
        let count = if is(5) { 17 } else { 16 };
        let mut input = [&[0xA0, 0xA2], &given::marks(count)[..], &[0x0D, 0xA0, 0xA2]].concat();
        let place = 2 + 2 * count + usize::from(is(6));
        let sound = Call { cells: cells::rusts(), initial: 0, width: 0, input: &input };
        holder.begin(index);
        holder.read(sound)?;
        bookmarks(holder, sound)?;
        holder.load(damaged(holder.store().to_vec(), index >> WRONG));
        if is(2) {
            input.resize(LONGEST + 1, 0x0D);
        }
        let cells = &cells::rusts()[usize::from(is(0))..];
        let call = Call { cells, initial: 0, width: if is(1) { 2 } else { 0 }, input: &input };
        let name = if is(3) {
            16
        } else if is(4) {
            UNSET
        } else {
            NAME
        };
        let beyond = [if is(7) { -1 } else { 0 }, if is(8) { -1 } else { 0 }];
        holder.go_on(Rest { beyond, ..Rest::new(call, name) })?;
        holder.set(Setting::new(call, place, name))?;
        holder.go_on(Rest { beyond, ..Rest::new(call, name) })?;
        Ok(())
    })
}

/// A bookmark where all marks wait, or, where they are too many, before the last, and one beside
/// it.
fn bookmarks(holder: &mut Holder, call: Call) -> Held {
    holder.set(Setting::new(call, 34, NAME))?;
    holder.set(Setting::new(call, 2, NAME - 1)).map(drop)
}

/// The store of this number: as it is; with a number less or more; with a first number above 1,
/// there, beside it or in the last; with numbers that no reading has.
fn damaged(mut store: Vec<u32>, number: u64) -> Vec<u32> {
    match number {
        0 => {}
        1 => drop(store.pop()),
        2 => store.push(0),
        3 => named_mut(&mut store, NAME)[0] = 2,
        4 => named_mut(&mut store, NAME - 1)[0] = u32::MAX,
        5 => store[STORE - NUMBERS] = 2,
        6 => named_mut(&mut store, NAME)[PLACE] = 1_000,
        7 => named_mut(&mut store, NAME)[LENGTHS + 127] = 1_000,
        _ => {
            let bookmark = named_mut(&mut store, NAME);
            (bookmark[REPEAT], bookmark[CHARGE], bookmark[TEXT]) = (64, u32::MAX, 1 << 31);
        }
    }
    store
}
