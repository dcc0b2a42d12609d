//! Text to eight-unit code.

use std::error::Error;
use std::fmt;

use crate::AribString;
use crate::buffers::larger;
use crate::cells;
use crate::decode::WidthMode;
use crate::ffi;
use crate::sets::InitialState;

/// Options of coding: those under which the receiver decodes.
#[derive(Debug, Clone, Copy, PartialEq, Eq, Hash, Default)]
pub struct EncodeOptions {
    pub initial: InitialState,
    pub width: WidthMode,
}

/// Why a text cannot be coded.
#[derive(Debug, Clone, PartialEq, Eq)]
#[non_exhaustive]
pub enum EncodeError {
    /// The character at a byte of the text is in none of the sets.
    Unencodable { index: usize, ch: char },
    /// The combining mark at a byte of the text has no base after the last newline.
    NoBase { index: usize, ch: char },
    /// The text has more than 7,281 bytes.
    TooLong,
}

impl fmt::Display for EncodeError {
    fn fmt(&self, f: &mut fmt::Formatter<'_>) -> fmt::Result {
        match *self {
            EncodeError::Unencodable { index, ch } => {
                write!(f, "no set has U+{:04X}, at byte {index}", u32::from(ch))
            }
            EncodeError::NoBase { index, ch } => {
                write!(
                    f,
                    "the mark U+{:04X} at byte {index} has no base",
                    u32::from(ch)
                )
            }
            EncodeError::TooLong => write!(f, "the text has more than 7,281 bytes"),
        }
    }
}

impl Error for EncodeError {}

/// How many numbers the first store has. Of the 60 titles in `compare/data` 51 need no more.
const STORE: usize = 8_192;

/// A coding, and the gap: no admissible coding of the text is shorter by more.
#[derive(Debug, Clone, PartialEq, Eq)]
pub struct Coded {
    pub bytes: AribString,
    pub gap: usize,
}

/// Codes a text with the default options: Si, CharacterSize.
pub fn encode(text: &str) -> Result<AribString, EncodeError> {
    encode_with(text, &EncodeOptions::default())
}

/// Codes a text of at most 7,281 bytes.
///
/// ```
/// use isdb_text::{EncodeError, EncodeOptions, encode_with};
/// let options = EncodeOptions::default();
/// assert_eq!(encode_with("Ａ", &options).unwrap().0, [0x0E, 0x41]);
/// let error = encode_with("\u{1}", &options).unwrap_err();
/// assert_eq!(error, EncodeError::Unencodable { index: 0, ch: '\u{1}' });
/// ```
pub fn encode_with(text: &str, opts: &EncodeOptions) -> Result<AribString, EncodeError> {
    code_with(text, opts).map(|coded| coded.bytes)
}

/// The same, with the gap.
///
/// ```
/// use isdb_text::{EncodeOptions, code_with};
/// assert_eq!(code_with("Ａ", &EncodeOptions::default()).unwrap().gap, 0);
/// ```
pub fn code_with(text: &str, opts: &EncodeOptions) -> Result<Coded, EncodeError> {
    let call = cells::call(opts.initial, opts.width, text.as_bytes());
    let mut coding = vec![0; 9 * text.len().min(7_281)];
    let (mut store, mut counts) = (vec![0; STORE], [0; 3]);
    loop {
        match ffi::encode(call, &mut store, &mut coding, &mut counts) {
            0 => break,
            7 => store = larger(&store),
            number => return Err(error(text, number, counts[0])),
        }
    }
    let [_, length, gap] = counts;
    coding.truncate(length);
    Ok(Coded {
        bytes: AribString(coding),
        gap,
    })
}

/// The error of a refusal other than 7. 8 does not come: a character takes at most nine bytes.
fn error(text: &str, number: u32, index: usize) -> EncodeError {
    let ch = text[index..].chars().next().unwrap_or('\0');
    match number {
        5 => EncodeError::NoBase { index, ch },
        6 => EncodeError::Unencodable { index, ch },
        3 => EncodeError::TooLong,
        number => unreachable!("refused {number}"),
    }
}

#[cfg(test)]
mod tests {
    use crate::{cells, ffi};

    /// What a title needs, a number less, one for each of its states, and four.
    #[test]
    fn a_title_in_stores() {
        let text = "ニュース 7:00".as_bytes();
        let call = cells::call(Default::default(), Default::default(), text);
        let coded = |numbers| {
            let (mut store, mut coding, mut counts) = (vec![u32::MAX; numbers], [0; 32], [0; 3]);
            let refused = ffi::encode(call, &mut store, &mut coding, &mut counts);
            assert!(store.iter().all(|&number| number == 0));
            (refused, coding, counts)
        };
        let refused = (7, [0; 32], [0; 3]);
        assert_eq!([2_157, 1_018].map(coded), [refused; 2]);
        let exact = coded(2_158);
        assert_eq!((exact.0, exact), (0, coded(4 * 1_018)));
    }
}
