//! What a part of the runs of the crate has counted.

use std::fmt::{Display, Formatter, Result};

use crate::tally::{Positions, PrivateUse, tally};

tally! {
    pub struct Tally {
        /// Inputs decoded, keyed, asked for issues and measured, once for each pair of options.
        pub readings: u64,
        /// Their issues, and how many have a key: those that are clean and without private-use
        /// characters.
        pub issues: u64,
        pub keys: u64,
        /// The positions of the issues, and the private-use characters.
        pub positions: Positions,
        pub private_use: PrivateUse,
        /// Texts coded or refused, likewise; how many were decoded again, how many have a gap.
        pub codings: u64,
        pub again: u64,
        pub gaps: u64,
    }
}

impl Display for Tally {
    fn fmt(&self, f: &mut Formatter<'_>) -> Result {
        let Tally { readings, issues, keys, positions, private_use, codings, again, gaps } = self;
        write!(f, "{readings} readings with {issues} issues and {keys} keys; {positions}; ")?;
        write!(f, "{private_use}; ")?;
        write!(f, "{codings} codings, {again} decoded again, {gaps} with a gap")
    }
}
