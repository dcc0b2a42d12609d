//! `encode_with` in the numbers of 01.

use isdb_text::{EncodeError, encode_with};

use crate::options::Options;

/// A refusal: the question's number and the byte place in the text.
#[derive(Debug, Clone, Copy, PartialEq, Eq)]
pub struct Refusal {
    pub number: u32,
    pub place: u32,
}

/// Codes `text`. The Rust's text is UTF-8 by its type, so 4 is the answer of `from_utf8`.
pub fn code(options: Options, text: &[u8]) -> Result<Vec<u8>, Refusal> {
    let text = str::from_utf8(text).map_err(|e| refusal(4, e.valid_up_to()))?;
    match encode_with(text, &options.into()) {
        Ok(coding) => Ok(coding.0),
        Err(EncodeError::NoBase { index, .. }) => Err(refusal(5, index)),
        Err(EncodeError::Unencodable { index, .. }) => Err(refusal(6, index)),
        Err(other) => panic!("01 has no number for {other:?}"),
    }
}

/// The refusal with this number at this place.
pub fn refusal(number: u32, place: usize) -> Refusal {
    Refusal { number, place: place as u32 }
}
