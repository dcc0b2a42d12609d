//! What a part of the runs of programs has counted.

use std::fmt::{Display, Formatter, Result};

use crate::tally::{by_number, tally};

tally! {
    pub struct Tally {
        /// Runs of a program, and the bytes given and printed.
        pub runs: u64,
        pub given: u64,
        pub printed: u64,
        /// Lines of `keys`, and those of them that are malformed.
        pub lines: u64,
        pub malformed: u64,
        /// Answers by refusal number; 0 for accepted calls. A line of `keys` is a call.
        pub answers: [u64; 12],
        /// Runs left out: this user reads every file, and cannot run a program as another.
        pub skipped: u64,
    }
}

impl Display for Tally {
    fn fmt(&self, f: &mut Formatter<'_>) -> Result {
        let Tally { runs, given, printed, lines, malformed, answers, skipped } = self;
        write!(f, "{runs} runs, {given} bytes given, {printed} printed")?;
        if *lines > 0 {
            write!(f, "; {lines} lines, {malformed} malformed")?;
        }
        if *skipped > 0 {
            write!(f, "; {skipped} skipped, for want of a user who does not read every file")?;
        }
        let numbers = by_number(answers);
        if numbers.is_empty() { Ok(()) } else { write!(f, "\n  answers by number:{numbers}") }
    }
}
