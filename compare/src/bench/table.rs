//! The tables: whose calls are measured, and on what.

use super::cases::{CATALOGUE, CODE, CRATE, MEASURE, READ, RETURN, SET};
use super::{Case, Side};

/// Cases that are measured alike.
pub struct Table {
    pub name: &'static str,
    /// What is lent to the subject, as the table's head has it.
    pub lent: &'static [&'static str],
    /// Two sides, of which the second is compared with the first.
    pub sides: [Column; 2],
    pub compared: Compared,
    pub cases: &'static [Case],
}

/// How the second side is compared with the first.
#[derive(Clone, Copy, PartialEq, Eq)]
pub enum Compared {
    /// By the ratio. Times are in nanoseconds.
    Ratio,
    /// What it takes beyond the first. Times are in microseconds.
    Beyond,
}

/// A side in a table.
pub struct Column {
    pub head: &'static str,
    pub side: Side,
    /// Whether question 1 is taken off.
    pub off: bool,
}

const RUST: Column = Column { head: "rust", side: Side::Rust, off: false };

const fn subject(head: &'static str, off: bool) -> Column {
    Column { head, side: Side::Subject, off }
}

static TABLES: [Table; 7] = [
    Table {
        name: "read",
        lent: &["text room", "issue room"],
        sides: [RUST, subject("subject", true)],
        compared: Compared::Ratio,
        cases: READ,
    },
    Table {
        name: "measure",
        lent: &[],
        sides: [
            Column { head: "decoding", side: Side::Exact, off: true },
            subject("measuring", true),
        ],
        compared: Compared::Ratio,
        cases: MEASURE,
    },
    Table {
        name: "set",
        lent: &[],
        sides: [
            Column { head: "measuring", side: Side::Half, off: false },
            subject("setting", false),
        ],
        compared: Compared::Ratio,
        cases: SET,
    },
    Table {
        name: "return",
        lent: &[],
        sides: [
            Column { head: "decoding", side: Side::Half, off: false },
            subject("returning", false),
        ],
        compared: Compared::Ratio,
        cases: RETURN,
    },
    Table {
        name: "code",
        lent: &["store", "coding room"],
        sides: [RUST, subject("subject", false)],
        compared: Compared::Ratio,
        cases: CODE,
    },
    Table {
        name: "catalogue",
        lent: &["key room", "entries"],
        sides: [
            Column { head: "key, us", side: Side::Key, off: false },
            subject("beyond, us", false),
        ],
        compared: Compared::Beyond,
        cases: CATALOGUE,
    },
    Table {
        name: "crate",
        lent: &[],
        sides: [RUST, subject("crate", false)],
        compared: Compared::Ratio,
        cases: CRATE,
    },
];

/// All tables; that of the crate where the crate is linked.
pub fn tables() -> impl Iterator<Item = &'static Table> {
    TABLES.iter().filter(|table| table.name != "crate" || cfg!(feature = "library"))
}
