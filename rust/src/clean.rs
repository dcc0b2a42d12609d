//! Titles that read without issue.

use crate::decode::{DecodeOptions, Refused};
use crate::ffi;

/// Whether a title reads without issue: whether [`decode_with`](crate::decode_with) would list
/// none. It stops at the first issue, and keeps neither text nor issues. A title of more than
/// 65,535 bytes is refused with 3.
///
/// ```
/// use isdb_text::{DecodeOptions, clean_with};
/// let options = DecodeOptions::default();
/// // ステレオ
/// assert!(clean_with(&[0x1B, 0x7C, 0xB9, 0xC6, 0xEC, 0xAA], &options).unwrap());
/// // あ, with an issue
/// assert!(!clean_with(&[0x24, 0xA2], &options).unwrap());
/// // a mark before its base; one that waits in vain
/// assert!(clean_with(&[0x21, 0x2D, 0xA2], &options).unwrap());
/// assert!(!clean_with(&[0xA2, 0x21, 0x2D], &options).unwrap());
/// assert_eq!(clean_with(&[0; 65_536], &options).unwrap_err().number, 3);
/// ```
pub fn clean_with(bytes: &[u8], opts: &DecodeOptions) -> Result<bool, Refused> {
    let mut counts = [0; 2];
    match ffi::clean(opts.call(bytes), &mut counts) {
        0 => Ok(counts[1] == 1),
        number => Err(Refused::new(number, &counts)),
    }
}
