//! ARIB eight-unit text, the code of titles and captions in Japanese digital broadcasting (ARIB
//! STD-B24 volume 1 part 2), read and written by a proved library. Names and types are those of
//! the crate isdb-text, so that a program changes one line of its `Cargo.toml`:
//!
//! ```toml
//! isdb-text = { path = "summerarch/rust" }
//! ```
//!
//! ```
//! use isdb_text::{AribString, encode};
//!
//! // LS3R, then four katakana.
//! let title = AribString(vec![0x1B, 0x7C, 0xB9, 0xC6, 0xEC, 0xAA]);
//! assert_eq!(title.decode().text, "ステレオ");
//!
//! // A coding reads back as its text.
//! let coded = encode("ニュース 7:00")?;
//! assert_eq!(coded.decode().text, "ニュース 7:00");
//! assert!(coded.decode().issues.is_empty());
//! # Ok::<(), isdb_text::EncodeError>(())
//! ```
//!
//! Beside what isdb-text has: [`code_with`] gives the gap, a bound on how much shorter any other
//! coding of the text could be; [`key_with`] gives the key of a title; [`clean_with`] says whether
//! a title reads without issue, and stops at the first; [`measure_with`] says how long a text is,
//! how many issues it has and what its macros charge, and keeps neither text nor issues;
//! [`try_decode_with`] says which question an input fails instead of panicking; [`Issue::position`]
//! is an issue's place in the text, which a program that spells out an [`Issue`] has to name too;
//! [`Decoded::private_use`] counts the private-use characters of the text, and likewise has to be
//! named. A title that has any gets no key, for [`Reason::PrivateUse`]. A [`Catalogue`] holds
//! titles by number and finds them by key, two spellings of one series together. [`Bookmarks`] name
//! places of a string, from which its reading goes on.

pub mod bookmarks;
mod buffers;
pub mod catalogue;
mod cells;
pub mod clean;
pub mod decode;
pub mod encode;
#[doc(hidden)]
pub mod ffi;
pub mod key;
pub mod measure;
pub mod reason;
pub mod sets;

pub use bookmarks::{Bookmark, Bookmarks};
pub use catalogue::{Catalogue, Found};
pub use clean::clean_with;
pub use decode::{
    DecodeOptions, Decoded, Issue, IssueKind, Refused, WidthMode, decode_with, try_decode_with,
};
pub use encode::{Coded, EncodeError, EncodeOptions, code_with, encode, encode_with};
pub use key::key_with;
pub use measure::{Measured, measure_with};
pub use reason::Reason;
pub use sets::{GraphicSet, InitialState};

/// The bytes of an eight-unit string, as they are sent.
#[derive(Debug, Clone, Default, PartialEq, Eq, Hash)]
pub struct AribString(pub Vec<u8>);

impl AribString {
    /// The bytes.
    pub fn as_bytes(&self) -> &[u8] {
        &self.0
    }

    /// Decodes with the default options: Si, CharacterSize. Panics on more than 65,535 bytes.
    pub fn decode(&self) -> Decoded {
        self.decode_with(&DecodeOptions::default())
    }

    /// Decodes with options. Panics on more than 65,535 bytes.
    pub fn decode_with(&self, opts: &DecodeOptions) -> Decoded {
        decode::decode_with(&self.0, opts)
    }

    /// The text alone, with U+FFFD for each code that has no character.
    pub fn to_string_lossy(&self) -> String {
        self.decode().text
    }

    /// Codes a text with the default options.
    pub fn encode(text: &str) -> Result<AribString, EncodeError> {
        encode::encode(text)
    }

    /// Codes a text with options.
    pub fn encode_with(text: &str, opts: &EncodeOptions) -> Result<AribString, EncodeError> {
        encode::encode_with(text, opts)
    }
}

impl From<Vec<u8>> for AribString {
    fn from(bytes: Vec<u8>) -> Self {
        AribString(bytes)
    }
}

impl From<&[u8]> for AribString {
    fn from(bytes: &[u8]) -> Self {
        AribString(bytes.to_vec())
    }
}
