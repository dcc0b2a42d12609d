//! What a part of the runs of the catalogue has counted.

use std::fmt::{Display, Formatter, Result};

use crate::tally::{Greatest, by_number, tally};

/// The greatest refusal's number, and one for 0.
const NUMBERS: usize = 15;

tally! {
    pub struct Tally {
        /// Stores that calls began with, those of another form, and the calls on these.
        pub stores: u64,
        pub other: u64,
        pub on_other: u64,
        /// Calls of each kind by refusal number; 0 for accepted ones.
        pub adds: [u64; NUMBERS],
        pub removals: [u64; NUMBERS],
        pub finds: [u64; NUMBERS],
        /// Keys added that another entry has, and removed ones that another entry keeps.
        pub doubled: u64,
        pub kept: u64,
        /// Finds of a key that one entry has, and of one that several have.
        pub single: u64,
        pub several: u64,
        /// The most entries.
        pub entries: Greatest,
    }
}

/// The stores, then each kind of call by refusal number.
impl Display for Tally {
    fn fmt(&self, f: &mut Formatter<'_>) -> Result {
        let Tally { stores, other, on_other, adds, removals, finds, entries, .. } = self;
        let calls = |of: &[u64]| of.iter().sum::<u64>();
        let all = calls(adds) + calls(removals) + calls(finds);
        writeln!(
            f,
            "{all} calls on {stores} stores, {on_other} of them on {other} of another form; most \
             entries {entries}"
        )?;
        let Tally { doubled, kept, single, several, .. } = self;
        let line = |of: &[u64]| format!("{}, by number:{}", calls(of), by_number(of));
        writeln!(f, "  adds {}; {doubled} of a key that is held", line(adds))?;
        writeln!(f, "  removals {}; {kept} of a key that stays", line(removals))?;
        write!(f, "  finds {}; {single} of one entry, {several} of several", line(finds))
    }
}
