//! `compare decode`: the parts of the differential runs.

pub mod hold;
mod lent;
mod questions;
mod random;
mod rooms;
mod short;
mod tables;
mod tally;
pub mod vectors;

use crate::runs::{self, Amount, Part};

pub use hold::Holder;
pub use lent::{AMPLE, Buffers, DECODED, issues};
pub use tally::Tally;

/// How the runs are done.
pub type Runs = runs::Runs<Holder<'static>, Amount>;

/// What a part has counted, or the difference that it found.
type Found = runs::Found<Holder<'static>>;

/// How much is done if nothing is said.
pub const USUAL: Amount = Amount { random: 2_000_000, every: 1, greatest: false };

/// The parts in the order in which they are done.
const PARTS: [Part<Holder<'static>, Amount>; 8] = [
    ("corners", short::corners),
    ("0 to 2 bytes", short::to_two),
    ("parts of escapes", questions::escapes),
    ("questions 1 to 3", questions::questions),
    ("other cell tables", tables::tables),
    ("random", random::random),
    ("long", random::long),
    ("3 bytes", short::three),
];

/// Does all parts and prints what each counted; false at a difference.
pub fn all(runs: &Runs) -> bool {
    println!("{runs}");
    runs.all(&PARTS)
}
