//! What a part of the runs of bookmarks has counted.

use std::fmt::{Display, Formatter, Result};

use crate::tally::{Greatest, Positions, PrivateUse, by_number, tally};

/// The greatest refusal's number, and one for 0.
const NUMBERS: usize = 17;

tally! {
    pub struct Tally {
        /// Whole readings, and those held against the Rust.
        pub readings: u64,
        pub rust: u64,
        /// Calls of each kind by refusal number; 0 for accepted ones.
        pub sets: [u64; NUMBERS],
        pub returns: [u64; NUMBERS],
        /// Bookmarks set while marks wait, while a repeat waits, with macros defined, with a
        /// charge.
        pub marks: u64,
        pub repeats: u64,
        pub macros: u64,
        pub charged: u64,
        /// The most marks that waited.
        pub waiting: Greatest,
        /// Rests that with what was read before them are the whole.
        pub wholes: u64,
        /// Returns whose store is not what a setting over the same call left, and how many of them
        /// are accepted.
        pub other: u64,
        pub other_accepted: u64,
        /// Of the accepted returns.
        pub positions: Positions,
        pub private_use: PrivateUse,
        pub longest: Greatest,
    }
}

/// The readings, each kind of call by refusal number, and what was set and returned.
impl Display for Tally {
    fn fmt(&self, f: &mut Formatter<'_>) -> Result {
        let Tally { readings, rust, sets, returns, .. } = self;
        let calls = |of: &[u64]| of.iter().sum::<u64>();
        let all = calls(sets) + calls(returns);
        writeln!(f, "{all} calls on {readings} readings, {rust} of these held against the Rust")?;
        let line = |of: &[u64]| format!("{}, by number:{}", calls(of), by_number(of));
        let Tally { marks, repeats, macros, charged, waiting, .. } = self;
        writeln!(
            f,
            "  sets {}; {marks} while marks wait, at most {waiting}, {repeats} while a repeat \
             waits, {macros} with macros, {charged} with a charge",
            line(sets)
        )?;
        let Tally { wholes, other, other_accepted, longest, .. } = self;
        writeln!(
            f,
            "  returns {}; {wholes} that make the whole, {other} from other bookmarks, \
             {other_accepted} of them accepted; longest text {longest}",
            line(returns)
        )?;
        write!(f, "  {}; {}", self.positions, self.private_use)
    }
}
