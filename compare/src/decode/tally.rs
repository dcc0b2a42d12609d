//! What a part of the runs of decoding has counted.

use std::fmt::{Display, Formatter, Result};

use crate::model::ISSUE;
use crate::tally::{Greatest, Positions, PrivateUse, by_number, tally};

tally! {
    pub struct Tally {
        /// Inputs read by the model, once for each pair of options.
        pub readings: u64,
        /// Calls of the subject that decode.
        pub calls: u64,
        /// Readings held against the Rust.
        pub rust: u64,
        /// Parts of unknown escapes asked for.
        pub parts: u64,
        /// Issues of kinds 1 to 13 in the readings.
        pub kinds: [u64; 14],
        /// Of the readings that the subject was held to, once each.
        pub positions: Positions,
        pub private_use: PrivateUse,
        /// Answers by refusal number; 0 for accepted calls.
        pub answers: [u64; 11],
        /// Calls of `arib_key` by refusal number, likewise.
        pub keys: [u64; 12],
        /// Calls of `arib_clean`, likewise, and how many of them on inputs without issue.
        pub asked: [u64; 4],
        pub clean: u64,
        /// Calls of `arib_measure`, likewise; calls of `arib_decode` with an issue less than it
        /// says, by the remainder of the issue buffer.
        pub measured: [u64; 4],
        pub remainders: [u64; ISSUE],
        /// Bytes of the longest text, and the greatest charge.
        pub longest: Greatest,
        pub charge: Greatest,
    }
}

/// The counts, the calls by refusal number, the issues by kind, their positions, the private-use
/// characters.
impl Display for Tally {
    fn fmt(&self, f: &mut Formatter<'_>) -> Result {
        let Tally { readings, calls, rust, parts, longest, charge, .. } = self;
        writeln!(
            f,
            "{readings} readings, {rust} held against the Rust, {calls} calls, {parts} parts"
        )?;
        writeln!(f, "  longest text {longest}, greatest charge {charge}")?;
        write!(f, "  calls by number:{}", by_number(&self.answers))?;
        let Tally { keys, asked, clean, measured, remainders, .. } = self;
        let calls = |of: &[u64]| format!("{} calls", of.iter().sum::<u64>());
        write!(f, "\n  {} for keys, by number:{}", calls(keys), by_number(keys))?;
        write!(f, "\n  {} of clean, {clean} without issue, by number:", calls(asked))?;
        write!(f, "{}", by_number(asked))?;
        write!(f, "\n  {} of measure, by number:{}", calls(measured), by_number(measured))?;
        write!(f, "\n  calls with an issue less, by remainder:{}", by_number(remainders))?;
        let Tally { kinds, positions, private_use, .. } = self;
        write!(f, "\n  issues by kind:{}\n  {positions}\n  {private_use}", by_number(kinds))
    }
}
