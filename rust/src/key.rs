//! Keys of titles.

use crate::buffers::{larger, text_room, written};
use crate::decode::{DecodeOptions, Refused};
use crate::ffi;

/// The key of a title: its text without newline, U+0020 and U+3000, the full-width forms of the 94
/// alphanumerics made half-width (U+FFE5 becomes U+00A5; U+FF3C stays, since backslash is not one
/// of the 94). A title of more than 65,535 bytes is refused with 3, one that does not read without
/// issue with 10, and one whose text has a private-use character, U+E000 to U+F8FF, with 11.
///
/// Stations arrange designations, shifts and sizes differently. Of a text that
/// [`encode_with`](crate::encode_with) accepts, every admissible coding within 65,535 bytes has one
/// key, or is refused with 11: the characters in order, marks before their base, each by one of its
/// codes from a set that is in GL or GR or single-shifted, under its size, and controls anywhere.
///
/// ```
/// use isdb_text::{DecodeOptions, Reason, key_with};
/// let options = DecodeOptions::default();
/// assert_eq!(key_with(&[0xA2, 0x20, 0xA4], &options).unwrap(), "あい");
/// // Ａ and A
/// assert_eq!(key_with(&[0x0E, 0x41], &options).unwrap(), "A");
/// assert_eq!(key_with(&[0x89, 0x0E, 0x41], &options).unwrap(), "A");
/// // あ through GR, and as another station sends it: LS1, SS2 and the code in GL's half, MSZ
/// assert_eq!(key_with(&[0xA2], &options).unwrap(), "あ");
/// assert_eq!(key_with(&[0x0E, 0x19, 0x22, 0x89], &options).unwrap(), "あ");
/// assert_eq!(key_with(&[0x24, 0xA2], &options).unwrap_err().number, 10);
/// // U+E290
/// let refused = key_with(&[0x7C, 0x3A], &options).unwrap_err();
/// assert_eq!(refused.number, 11);
/// assert_eq!(refused.reason(), Some(Reason::PrivateUse));
/// ```
pub fn key_with(bytes: &[u8], opts: &DecodeOptions) -> Result<String, Refused> {
    let call = opts.call(bytes);
    key_by(bytes, |key, counts| ffi::key(call, key, counts))
}

/// The key that a call leaves of a title: in a larger buffer as long as it answers 8.
pub(crate) fn key_by(
    bytes: &[u8],
    mut call: impl FnMut(&mut [u8], &mut [usize]) -> u32,
) -> Result<String, Refused> {
    let (mut key, mut counts) = (vec![0; text_room(bytes)], [0; 3]);
    loop {
        match call(&mut key, &mut counts) {
            0 => return Ok(written(key, counts[1])),
            8 => key = larger(&key),
            number => return Err(Refused::new(number, &counts)),
        }
    }
}
