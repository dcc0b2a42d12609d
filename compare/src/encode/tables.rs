//! Other cell tables that question 1 lets through, against the model.

use super::rooms::in_two;
use super::{Found, Runs};
use crate::call::under_all;
use crate::cells;
use crate::random::Random;
use crate::texts::{self, Alphabet};

/// How many texts are coded with one table.
const TEXTS: u64 = 40;

/// Zeros, then tables with odd cells: one text by such a table for ten random ones.
pub fn tables(runs: &Runs) -> Found {
    let total = (runs.amount.random / 10 / TEXTS).max(20);
    runs.each(total, |holder, index| {
        let mut random = Random::new(runs.seed ^ 0xCE11, index);
        let cells = cells::other(&mut random, index);
        let alphabet = Alphabet::new(&cells);
        for _ in 0..TEXTS {
            let text = texts::random(&mut random, &alphabet);
            let call = random.one_of(&under_all(&cells, &text));
            holder.code(call)?;
            in_two(holder, call, &mut random)?;
        }
        Ok(())
    })
}
