//! What a part of the runs of admissible codings has counted.

use std::fmt::{Display, Formatter, Result};

use crate::arrangement::Contents;
use crate::tally::{Greatest, PrivateUse, by_number, tally};

tally! {
    pub struct Tally {
        /// Texts under one pair of options and one cell table, and their codings.
        pub texts: u64,
        pub codings: u64,
        /// Codings held against the Rust.
        pub rust: u64,
        /// What the codings hold, and bytes of the longest.
        pub contents: Contents,
        pub longest: Greatest,
        pub private_use: PrivateUse,
        /// Calls of `arib_decode` and of `arib_key` by refusal number; 0 for accepted ones.
        pub answers: [u64; 11],
        pub keys: [u64; 12],
        /// Codings held against the length and the gap of the call's own, and those shorter than
        /// that.
        pub gaps: u64,
        pub shorter: u64,
        /// Pairs of codings that were added to a catalogue and found together.
        pub together: u64,
    }
}

/// The codings, what they hold, the calls by refusal number.
impl Display for Tally {
    fn fmt(&self, f: &mut Formatter<'_>) -> Result {
        let Tally { texts, codings, rust, longest, .. } = self;
        writeln!(
            f,
            "{codings} codings of {texts} texts, {rust} held against the Rust, longest {longest}"
        )?;
        let Contents { designations, elements, locking, sizes, characters } = &self.contents;
        writeln!(f, "  designations by set:{}", by_number(designations))?;
        writeln!(
            f,
            "  by element:{}; {} LS0 to LS3, LS1R to LS3R",
            by_number(elements),
            list(locking)
        )?;
        writeln!(f, "  {} MSZ, NSZ; characters by way:{}", list(sizes), by_number(characters))?;
        let Tally { answers, keys, private_use, gaps, shorter, together, .. } = self;
        writeln!(f, "  decoded, by number:{}; keyed:{}", by_number(answers), by_number(keys))?;
        write!(
            f,
            "  {private_use}; {gaps} against the gap, {shorter} shorter than the call's own; \
             {together} pairs found together"
        )
    }
}

/// Counts in their order.
fn list(counts: &[u64]) -> String {
    counts.iter().map(u64::to_string).collect::<Vec<_>>().join(" ")
}
