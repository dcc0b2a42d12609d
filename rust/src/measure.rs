//! How much room a string takes.

use crate::decode::{DecodeOptions, Refused};
use crate::ffi;

/// What [`decode_with`](crate::decode_with) gives, in numbers, private-use characters aside.
#[derive(Debug, Clone, Copy, Default, PartialEq, Eq)]
pub struct Measured {
    /// The bytes of [`Decoded::text`](crate::Decoded::text).
    pub text: usize,
    /// How many [`Decoded::issues`](crate::Decoded::issues) there are.
    pub issues: usize,
    /// The macro charge: the bytes of the macro bodies that ran.
    pub charged: usize,
}

/// How long the text of a string is, how many issues it has and what its macros charge, without
/// keeping either text or issues. A string of more than 65,535 bytes is refused with 3.
///
/// ```
/// use isdb_text::{DecodeOptions, measure_with};
/// let options = DecodeOptions::default();
/// // ステレオ
/// let stereo = measure_with(&[0x1B, 0x7C, 0xB9, 0xC6, 0xEC, 0xAA], &options).unwrap();
/// assert_eq!((stereo.text, stereo.issues, stereo.charged), (12, 0, 0));
/// // あ and a mark, which waits in vain
/// let mark = measure_with(&[0xA2, 0x21, 0x2D], &options).unwrap();
/// assert_eq!((mark.text, mark.issues, mark.charged), (5, 1, 0));
/// assert_eq!(measure_with(&[0; 65_536], &options).unwrap_err().number, 3);
/// ```
pub fn measure_with(bytes: &[u8], opts: &DecodeOptions) -> Result<Measured, Refused> {
    let mut counts = [0; 4];
    let number = ffi::measure(opts.call(bytes), &mut counts);
    if number != 0 {
        return Err(Refused::new(number, &counts));
    }
    let [_, text, issues, charged] = counts;
    Ok(Measured {
        text,
        issues,
        charged,
    })
}
