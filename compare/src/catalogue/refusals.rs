//! The order of the refusals of an add: everything that can be wrong with one, alone and together.

use super::given::{ISSUE, PRIVATE_USE, repeated};
use super::{Found, Runs, Title};
use crate::call::{Call, LONGEST};
use crate::cells;
use crate::entries::{self, Entries, MOST};

/// How many things can be wrong beside the store's form, and how many stores there are: one of the
/// form, one that lacks a byte, and one with another count of keys.
const WRONG: u32 = 9;
const STORES: u64 = 3;

/// Every set of them, on every store: the cell table, an option, the title's length, the buffer, an
/// issue, a private-use character, the number, the key's length, a full catalogue.
pub fn refusals(runs: &Runs) -> Found {
    let catalogues = [2, MOST].map(entries);
    runs.each(STORES << WRONG, |holder, index| {
        let is = |thing: u32| index >> thing & 1 == 1;
        let mut input = repeated(false, if is(7) { entries::LONGEST + 1 } else { 1 });
        if is(4) {
            input.extend(ISSUE);
        }
        if is(5) {
            input.extend(PRIVATE_USE);
        }
        if is(2) {
            input.resize(LONGEST + 1, 0x0D);
        }
        let cells = &cells::rusts()[usize::from(is(0))..];
        let call = Call { cells, initial: 0, width: if is(1) { 2 } else { 0 }, input: &input };
        let number = if is(6) { 5 } else { 7 };
        let beyond = if is(3) { -1 } else { 0 };
        let mut store = catalogues[usize::from(is(8))].store();
        match index >> WRONG {
            0 => {}
            1 => drop(store.pop()),
            _ => store[7] ^= 1,
        }
        holder.begin(index, store);
        holder.add(Title { call, number, beyond, counts: 3 })?;
        holder.remove(number)?;
        holder.find(b"A", 3)
    })
}

/// So many entries, with 5 among their numbers and not 7.
fn entries(count: usize) -> Entries {
    (0..count).map(|n| (5 * n as u32, vec![b'A'; n % 3])).collect()
}
