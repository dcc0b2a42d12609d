//! Named places of a string, from which its reading goes on.

use std::fmt;

use crate::decode::{DecodeOptions, Decoded, Refused, decode_by};
use crate::ffi;

/// Sixteen bookmarks, named 0 to 15, for a string that is being checked: reading goes on from one
/// as if it had come there from the start.
///
/// ```
/// use isdb_text::{Bookmarks, DecodeOptions, decode_with};
/// let (mut bookmarks, options) = (Bookmarks::new(), DecodeOptions::default());
/// // あ, katakana to G0, a newline, ア, an undefined control, い
/// let caption = [0xA2, 0x1B, 0x28, 0x31, 0x0D, 0x22, 0xA0, 0xA4];
/// bookmarks.set(&caption, 5, 0, &options)?;
/// let rest = bookmarks.resume(&caption, 0, &options)?;
/// assert_eq!(rest.text, "アい");
///
/// // what stands before the bookmark and the rest are the whole
/// let whole = decode_with(&caption, &options);
/// let bookmark = bookmarks.get(0).unwrap();
/// assert_eq!(whole.text.split_at(bookmark.text), ("あ\n", rest.text.as_str()));
/// assert_eq!(whole.issues[bookmark.issues..], rest.issues);
/// # Ok::<(), isdb_text::Refused>(())
/// ```
///
/// What they hold are [`Bookmarks::NUMBERS`] numbers, in the form that `include/arib_text.h` tells:
/// neither the string nor the options, which are given again to go on.
#[derive(Clone, PartialEq, Eq)]
pub struct Bookmarks {
    /// Always of that length, the first number of each bookmark 0 or 1.
    store: Vec<u32>,
}

/// Where a bookmark stands.
#[derive(Debug, Clone, Copy, PartialEq, Eq)]
pub struct Bookmark {
    /// The byte of the string, or its length.
    pub place: usize,
    /// The bytes of [`Decoded::text`] before it. Marks that wait there for their character are not
    /// counted: they belong to the rest.
    pub text: usize,
    /// How many [`Decoded::issues`] are reported before it.
    pub issues: usize,
}

/// The numbers of a bookmark.
const BOOKMARK: usize = 287;

impl Bookmarks {
    /// How many bookmarks there are, by name from 0 on.
    pub const NAMES: u32 = 16;

    /// How many numbers bookmarks have, whatever they hold.
    pub const NUMBERS: usize = 4_592;

    /// Bookmarks of which none is set.
    pub fn new() -> Bookmarks {
        Bookmarks {
            store: vec![0; Bookmarks::NUMBERS],
        }
    }

    /// Bookmarks from numbers, as [`Bookmarks::numbers`] gives them. Another length, or a first
    /// number of a bookmark above 1, is refused with 15.
    ///
    /// ```
    /// use isdb_text::{Bookmarks, DecodeOptions};
    /// let mut bookmarks = Bookmarks::new();
    /// // あい
    /// bookmarks.set(&[0xA2, 0xA4], 1, 7, &DecodeOptions::default())?;
    /// let kept = bookmarks.numbers().to_vec();
    /// assert_eq!(Bookmarks::from_numbers(kept.clone())?, bookmarks);
    ///
    /// let mut damaged = kept;
    /// damaged[0] = 2;
    /// assert_eq!(Bookmarks::from_numbers(damaged).unwrap_err().number, 15);
    /// # Ok::<(), isdb_text::Refused>(())
    /// ```
    pub fn from_numbers(numbers: Vec<u32>) -> Result<Bookmarks, Refused> {
        let mut tried = Bookmarks {
            store: numbers.clone(),
        };
        tried.set(&[], 0, 0, &DecodeOptions::default())?;
        Ok(Bookmarks { store: numbers })
    }

    /// The numbers, to be kept and taken up again by [`Bookmarks::from_numbers`].
    pub fn numbers(&self) -> &[u32] {
        &self.store
    }

    /// Sets a bookmark at a place of a string, instead of one that has the name. A place is a byte
    /// where a step begins (a code with its parameters, a macro's definition with its body),
    /// outside macro bodies, or the string's end; another one, and one where more than sixteen
    /// marks wait, is refused with 16. A string of more than 65,535 bytes is refused with 3, and a
    /// name above 15 with 15. A refusal leaves the bookmarks as they were.
    ///
    /// ```
    /// use isdb_text::{Bookmarks, DecodeOptions, Reason};
    /// let (mut bookmarks, options) = (Bookmarks::new(), DecodeOptions::default());
    /// // あ, katakana to G0
    /// let mut reason = |place, name| {
    ///     let refused = bookmarks.set(&[0xA2, 0x1B, 0x28, 0x31], place, name, &options);
    ///     refused.unwrap_err().reason()
    /// };
    /// assert_eq!(reason(2, 0), Some(Reason::BookmarkPlace));
    /// assert_eq!(reason(1, 16), Some(Reason::BookmarkMismatch));
    /// assert_eq!(bookmarks, Bookmarks::new());
    /// ```
    pub fn set(
        &mut self,
        bytes: &[u8],
        place: usize,
        name: u32,
        opts: &DecodeOptions,
    ) -> Result<(), Refused> {
        let mut counts = [0];
        match ffi::bookmark_set(opts.call(bytes), place, name, &mut self.store, &mut counts) {
            0 => Ok(()),
            number => Err(Refused::new(number, &counts)),
        }
    }

    /// Decodes the rest of a string, from a bookmark on. Issues have the offsets and positions of
    /// the whole. A string of more than 65,535 bytes is refused with 3, and a name that is not set
    /// or above 15 with 15.
    ///
    /// With a string or options other than at the setting the result is undecided: a refusal with
    /// 15, or the text and issues of some reading.
    ///
    /// ```
    /// use isdb_text::{Bookmarks, DecodeOptions};
    /// let (mut bookmarks, options) = (Bookmarks::new(), DecodeOptions::default());
    /// // あ, a mark that waits, い, an undefined control
    /// let caption = [0xA2, 0x21, 0x2D, 0xA4, 0xA0];
    /// bookmarks.set(&caption, 3, 7, &options)?;
    /// let rest = bookmarks.resume(&caption, 7, &options)?;
    /// assert_eq!(rest.text, "い\u{301}");
    /// assert_eq!((rest.issues[0].offset, rest.issues[0].position), (4, 8));
    /// assert_eq!(bookmarks.resume(&caption, 8, &options).unwrap_err().number, 15);
    /// # Ok::<(), isdb_text::Refused>(())
    /// ```
    pub fn resume(
        &self,
        bytes: &[u8],
        name: u32,
        opts: &DecodeOptions,
    ) -> Result<Decoded, Refused> {
        let call = opts.call(bytes);
        decode_by(bytes, opts, |text, issues, counts| {
            ffi::bookmark_return(call, name, &self.store, text, issues, counts)
        })
    }

    /// Where the bookmark of a name stands; none if it is not set.
    ///
    /// ```
    /// use isdb_text::{Bookmark, Bookmarks, DecodeOptions};
    /// let mut bookmarks = Bookmarks::new();
    /// // あ, an undefined control, い
    /// bookmarks.set(&[0xA2, 0xA0, 0xA4], 2, 7, &DecodeOptions::default())?;
    /// assert_eq!(bookmarks.get(7), Some(Bookmark { place: 2, text: 3, issues: 1 }));
    /// assert_eq!(bookmarks.get(8), None);
    /// # Ok::<(), isdb_text::Refused>(())
    /// ```
    pub fn get(&self, name: u32) -> Option<Bookmark> {
        let numbers = self.store.chunks_exact(BOOKMARK).nth(name as usize)?;
        (numbers[0] == 1).then(|| Bookmark {
            place: numbers[1] as usize,
            text: numbers[285] as usize,
            issues: numbers[286] as usize,
        })
    }
}

impl Default for Bookmarks {
    fn default() -> Self {
        Bookmarks::new()
    }
}

/// Where those stand that are set, by name.
impl fmt::Debug for Bookmarks {
    fn fmt(&self, f: &mut fmt::Formatter<'_>) -> fmt::Result {
        let set = (0..Bookmarks::NAMES).filter_map(|name| Some((name, self.get(name)?)));
        f.debug_map().entries(set).finish()
    }
}
