//! A difference that was found, in words.

use std::fmt::{self, Display, Formatter};

use oracle::hex;

use crate::call::Call;
use crate::cells;

/// Longer answers are cut in print.
const CUT: usize = 4_000;

/// The call in which two answers differ, and the answers.
#[derive(Debug)]
pub struct Difference(String);

/// Nothing, or a difference.
pub type Held = Result<(), Difference>;

/// Nothing without a fault, else the difference with the answers that `answers` adds.
pub fn held(
    fault: Option<impl Display>,
    call: &Call,
    answers: impl FnOnce(Difference) -> Difference,
) -> Held {
    fault.map_or(Ok(()), |what| Err(answers(Difference::new(what, call))))
}

impl Difference {
    fn new(what: impl Display, call: &Call) -> Difference {
        let table = match call.cells {
            cells if cells == cells::rusts() => "the Rust's",
            cells if cells.iter().all(|&cell| cell == 0) => "zeros",
            _ => "another",
        };
        Difference(format!(
            "difference: {what}\ninput {} bytes: {}\ninitial {}, width {}\n\
             cell table: {table}, {} numbers\n",
            call.input.len(),
            digits(call.input),
            call.initial,
            call.width,
            call.cells.len()
        ))
    }

    /// An answer, or what else belongs to the call.
    pub fn line(mut self, name: &str, answer: impl Display) -> Difference {
        let mut answer = answer.to_string();
        if answer.len() > CUT {
            answer.truncate(answer.floor_char_boundary(CUT));
            answer += " (cut)";
        }
        self.0 += &format!("{name}: {answer}\n");
        self
    }
}

impl Display for Difference {
    fn fmt(&self, f: &mut Formatter<'_>) -> fmt::Result {
        f.write_str(&self.0)
    }
}

pub fn digits(bytes: &[u8]) -> String {
    let mut out = String::new();
    hex::push(&mut out, bytes);
    out
}
