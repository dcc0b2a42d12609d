//! `compare arrangements`: the parts of the runs of admissible codings.

pub mod hold;
mod random;
mod short;
mod tally;

use crate::runs::{self, Part};

pub use hold::Holder;
pub use tally::Tally;

/// How the runs are done.
pub type Runs = runs::Runs<Holder<'static>, Amount>;

/// What a part has counted, or the difference that it found.
type Found = runs::Found<Holder<'static>>;

/// How many random codings; other cell tables, the gap and the catalogue go by it too.
pub struct Amount {
    pub random: u64,
}

/// How much is done if nothing is said.
pub const USUAL: Amount = Amount { random: 1_000_000 };

/// The parts in the order in which they are done.
const PARTS: [Part<Holder<'static>, Amount>; 8] = [
    ("corners", short::corners),
    ("every way", short::every_way),
    ("pairs of controls", short::pairs),
    ("other cell tables", random::tables),
    ("random", random::random),
    ("against the gap", random::floors),
    ("catalogue", random::catalogue),
    ("long", random::long),
];

/// Does all parts and prints what each counted; false at a difference.
pub fn all(runs: &Runs) -> bool {
    println!("{runs}, {} random codings", runs.amount.random);
    runs.all(&PARTS)
}
