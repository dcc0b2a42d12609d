//! `compare bookmarks`: the parts of the runs of bookmarks.

mod damage;
mod damaged;
pub mod given;
pub mod hold;
mod lent;
mod names;
mod others;
mod places;
mod questions;
mod random;
mod refusals;
mod state;
mod tally;
pub mod vectors;

use crate::runs::{self, Part};

pub use hold::{Holder, Rest, Setting};
pub use lent::Lying;
pub use tally::Tally;

/// How the runs are done.
pub type Runs = runs::Runs<Holder<'static>, Amount>;

/// What a part has counted, or the difference that it found.
type Found = runs::Found<Holder<'static>>;

/// How many random inputs; the other parts but the first ones go by it too.
pub struct Amount {
    pub random: u64,
}

/// How much is done if nothing is said, and of the quick run.
pub const USUAL: Amount = Amount { random: 20_000 };
pub const QUICK: Amount = Amount { random: 800 };

/// The parts in the order in which they are done.
const PARTS: [Part<Holder<'static>, Amount>; 11] = [
    ("names", names::names),
    ("questions 1 to 3", questions::questions),
    ("order of refusals", refusals::refusals),
    ("damaged numbers", damaged::each_number),
    ("damaged stores", damaged::random),
    ("other calls", others::others),
    ("other cell tables", random::tables),
    ("random", random::random),
    ("corners", places::corners),
    ("0 to 2 bytes", places::to_two),
    ("long", random::long),
];

/// Those of the quick run: what is not as at the setting, and a little of what is.
const QUICK_PARTS: [Part<Holder<'static>, Amount>; 4] = [
    ("damaged numbers", damaged::some_numbers),
    ("damaged stores", damaged::random),
    ("other calls", others::others),
    ("random", random::random),
];

/// Does all parts and prints what each counted; false at a difference.
pub fn all(runs: &Runs) -> bool {
    println!("{runs}, {} random inputs", runs.amount.random);
    runs.all(&PARTS)
}

/// The same of the quick run.
pub fn quick(runs: &Runs) -> bool {
    println!("{runs}, {} random inputs", runs.amount.random);
    runs.all(&QUICK_PARTS)
}
