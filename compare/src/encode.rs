//! `compare encode`: the parts of the differential runs of coding.

mod characters;
pub mod hold;
mod lent;
mod questions;
mod random;
pub mod rooms;
mod short;
mod tables;
mod tally;
pub mod vectors;

use crate::runs::{self, Amount, Part};

pub use hold::Holder;
pub use lent::Buffers;
pub use tally::Tally;

/// How the runs are done.
pub type Runs = runs::Runs<Holder<'static>, Amount>;

/// What a part has counted, or the difference that it found.
type Found = runs::Found<Holder<'static>>;

/// How much is done if nothing is said.
pub const USUAL: Amount = Amount { random: 240_000, every: 1, greatest: false };

/// The parts in the order in which they are done.
const PARTS: [Part<Holder<'static>, Amount>; 10] = [
    ("corners", short::corners),
    ("repertoire", characters::repertoire),
    ("sequences of samples", short::sequences),
    ("marks", short::marks),
    ("ill-formed", short::ill_formed),
    ("questions 1 to 3", questions::questions),
    ("other cell tables", tables::tables),
    ("random", random::random),
    ("long", random::long),
    ("every character", characters::every),
];

/// Does all parts and prints what each counted; false at a difference.
pub fn all(runs: &Runs) -> bool {
    println!("{runs}");
    runs.all(&PARTS)
}
