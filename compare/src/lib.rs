//! Decoding, keys, clean titles, measuring, coding, the catalogue, bookmarks and arrangements by the
//! static library of crates/text_c, and by the crate in rust/ over it, held against the Rust and
//! against a model of docs/01-scope.md ("01"), and measured against the Rust.

pub mod arrangement;
pub mod arrangements;
pub mod bench;
#[cfg(feature = "library")]
pub mod binding;
pub mod bookmark;
pub mod bookmarks;
pub mod call;
pub mod catalogue;
pub mod cells;
pub mod coding;
pub mod decode;
pub mod difference;
pub mod encode;
pub mod entries;
pub mod inputs;
pub mod key;
pub mod lent;
pub mod model;
pub mod private_use;
pub mod programs;
pub mod questions;
pub mod random;
pub mod runs;
pub mod subject;
pub mod tally;
pub mod texts;
pub mod titles;
pub mod vectors;
pub mod words;
