//! What a part of the runs of coding has counted.

use std::fmt::{Display, Formatter, Result};

use crate::tally::{Greatest, by_number, tally};

tally! {
    pub struct Tally {
        /// Texts given to the Rust, under one pair of options or several.
        pub texts: u64,
        /// Texts coded by the model, once for each pair of options and each cell table.
        pub codings: u64,
        /// Codings and refusals held against the Rust.
        pub rust: u64,
        /// Codings that were decoded again.
        pub again: u64,
        /// Codings whose search dropped states, and those with a gap.
        pub dropping: u64,
        pub gaps: u64,
        /// Calls of the subject.
        pub calls: u64,
        /// Answers by refusal number; 0 for accepted calls.
        pub answers: [u64; 9],
        /// Bytes of the longest text and the longest coding, the greatest gap, and the most numbers
        /// of a store that were needed.
        pub text: Greatest,
        pub coding: Greatest,
        pub gap: Greatest,
        pub store: Greatest,
        /// The numbers that all stores needed, and four for each state.
        pub numbers: u64,
        pub older: u64,
    }
}

/// Five lines: the counts, the states dropped, the greatest, the stores, the calls by refusal
/// number.
impl Display for Tally {
    fn fmt(&self, f: &mut Formatter<'_>) -> Result {
        let Tally { texts, codings, rust, again, dropping, gaps, calls, .. } = self;
        writeln!(
            f,
            "{texts} texts and {rust} of {codings} codings held against the Rust, \
             {again} decoded again, {calls} calls"
        )?;
        writeln!(f, "  states dropped in {dropping}, a gap in {gaps}")?;
        let Tally { text, coding, gap, store, numbers, older, answers, .. } = self;
        writeln!(f, "  longest text {text}, longest coding {coding}, greatest gap {gap}")?;
        writeln!(f, "  greatest store {store}; all of them {numbers}, by four a state {older}")?;
        write!(f, "  calls by number:{}", by_number(answers))
    }
}
