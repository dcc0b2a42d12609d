//! `compare catalogue`: the parts of the runs of the catalogue.

mod alike;
mod corners;
mod damage;
mod damaged;
pub mod given;
pub mod hold;
mod pool;
mod random;
mod refusals;
mod tally;
pub mod vectors;

use crate::runs::{self, Part};

pub use damage::{KINDS, damage};
pub use hold::{Holder, Title};
pub use tally::Tally;

/// How the runs are done.
pub type Runs = runs::Runs<Holder<'static>, Amount>;

/// What a part has counted, or the difference that it found.
type Found = runs::Found<Holder<'static>>;

/// How many random sequences of calls; the other parts but the first two go by it too.
pub struct Amount {
    pub random: u64,
}

/// How much is done if nothing is said.
pub const USUAL: Amount = Amount { random: 6_000 };

/// The parts in the order in which they are done.
const PARTS: [Part<Holder<'static>, Amount>; 6] = [
    ("corners", corners::corners),
    ("order of refusals", refusals::refusals),
    ("damaged stores", damaged::damaged),
    ("keys alike", alike::alike),
    ("random", random::short),
    ("long", random::long),
];

/// Does all parts and prints what each counted; false at a difference.
pub fn all(runs: &Runs) -> bool {
    println!("{runs}, {} random sequences", runs.amount.random);
    runs.all(&PARTS)
}
