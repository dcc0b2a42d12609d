//! Why a call is refused.

use std::fmt;

use crate::decode::Refused;

/// Why decoding, measuring, asking for issues or a key, or a call of a [`Catalogue`] or of
/// [`Bookmarks`] is refused. Other questions do not fail: the cell table and the options are the
/// crate's own, and its buffers grow.
///
/// [`Catalogue`]: crate::Catalogue
/// [`Bookmarks`]: crate::Bookmarks
#[derive(Debug, Clone, Copy, PartialEq, Eq, Hash)]
#[non_exhaustive]
pub enum Reason {
    /// 3: there are more than 65,535 bytes.
    TooLong,
    /// 10: the title does not read without issue, so it has no key.
    HasIssues,
    /// 11: the title's text has a private-use character, U+E000 to U+F8FF, so it has no key.
    PrivateUse,
    /// 12: the catalogue does not match the call. On adding, the number is present; on removing, it
    /// is absent; of bytes to make a catalogue from, the length or the form is another.
    CatalogueMismatch,
    /// 13: the key to be added to a catalogue has more than 255 bytes.
    KeyTooLong,
    /// 14: the catalogue to be added to has 1,024 entries.
    CatalogueFull,
    /// 15: the bookmarks do not match the call. The name is above 15 or, on resuming, not set; the
    /// string to resume is not the one of the setting; of numbers to make bookmarks from, the
    /// length or the form is another.
    BookmarkMismatch,
    /// 16: no bookmark can stand at the place: it is within a step or behind the end, or more than
    /// sixteen marks wait there.
    BookmarkPlace,
}

impl Refused {
    /// The number in words; none for a number that the crate does not give.
    ///
    /// ```
    /// use isdb_text::{DecodeOptions, Reason, key_with};
    /// let options = DecodeOptions::default();
    /// let reason = |title: &[u8]| key_with(title, &options).unwrap_err().reason();
    /// assert_eq!(reason(&[0x24, 0xA2]), Some(Reason::HasIssues));
    /// assert_eq!(reason(&[0x7C, 0x3A]), Some(Reason::PrivateUse));
    /// // asked in this order
    /// assert_eq!(reason(&[0x7C, 0x3A, 0x24, 0xA2]), Some(Reason::HasIssues));
    /// ```
    pub fn reason(&self) -> Option<Reason> {
        match self.number {
            3 => Some(Reason::TooLong),
            10 => Some(Reason::HasIssues),
            11 => Some(Reason::PrivateUse),
            12 => Some(Reason::CatalogueMismatch),
            13 => Some(Reason::KeyTooLong),
            14 => Some(Reason::CatalogueFull),
            15 => Some(Reason::BookmarkMismatch),
            16 => Some(Reason::BookmarkPlace),
            _ => None,
        }
    }
}

impl fmt::Display for Reason {
    fn fmt(&self, f: &mut fmt::Formatter<'_>) -> fmt::Result {
        f.write_str(match self {
            Reason::TooLong => "there are more than 65,535 bytes",
            Reason::HasIssues => "the title does not read without issue",
            Reason::PrivateUse => "the title's text has a private-use character",
            Reason::CatalogueMismatch => {
                "the number to add is present, that to remove is absent, or bytes are no catalogue"
            }
            Reason::KeyTooLong => "the key has more than 255 bytes",
            Reason::CatalogueFull => "the catalogue has 1,024 entries",
            Reason::BookmarkMismatch => {
                "the name is above 15 or not set, or numbers are no bookmarks of the string"
            }
            Reason::BookmarkPlace => "no bookmark can stand at the place",
        })
    }
}
