//! `compare programs`: `listing`, `encoding` and `keys` run as a user runs them, and what they print
//! held against the Rust and the models.

mod encoding;
mod feed;
mod folder;
mod hold;
mod keys;
mod line;
mod listing;
mod malformed;
mod many;
mod nobody;
mod run;
mod streams;
mod table;
mod tables;
mod tally;

use crate::runs::{self, Part};

pub use feed::Feed;
pub use hold::{Given, Holder};
pub use run::Program;
pub use table::Table;
pub use tally::Tally;

/// How the runs are done.
pub type Runs = runs::Runs<Holder, Amount>;

/// What a part has counted, or the difference that it found.
type Found = runs::Found<Holder>;

/// How many random inputs of each program, and how many lines of `keys` in constant memory.
pub struct Amount {
    pub random: u64,
    pub lines: u64,
}

/// About a minute's.
pub const USUAL: Amount = Amount { random: 200, lines: 1_000_000 };

/// The folder of the programs, if nothing is said.
pub const BIN: &str = concat!(env!("CARGO_MANIFEST_DIR"), "/../target/bin");

/// The parts in the order in which they are done.
const PARTS: [Part<Holder, Amount>; 11] = [
    ("jis.tab", tables::tables),
    ("listing", listing::inputs),
    ("listing, lengths", listing::lengths),
    ("listing, rooms", listing::rooms),
    ("encoding", encoding::texts),
    ("encoding, lengths", encoding::lengths),
    ("encoding, store", encoding::store),
    ("keys", keys::titles),
    ("keys, lines", malformed::lines),
    ("keys, many lines", many::lines),
    ("standard input and output", streams::streams),
];

/// Does all parts and prints what each counted; false at a difference. An error is a program that is
/// not there.
pub fn all(runs: &Runs) -> Result<bool, String> {
    for program in Program::ALL {
        let path = runs.subject.join(program.name());
        if !path.exists() {
            let (path, name) = (path.display(), program.name());
            return Err(format!("{path} is missing: `./build {name}` makes it"));
        }
    }
    let Amount { random, lines } = runs.amount;
    println!("{runs}, {random} random inputs of each program, {lines} lines");
    Ok(runs.all(&PARTS))
}
