//! A live catalogue of titles, found by their keys.

use std::fmt;

use crate::decode::{DecodeOptions, Refused};
use crate::ffi;
use crate::key::key_by;

/// Titles by numbers of the program's own, each held as its key. It tells how many have a key, and
/// the smallest of their numbers, so that two spellings of one series are found together.
///
/// ```
/// use isdb_text::{Catalogue, DecodeOptions};
/// let (mut catalogue, options) = (Catalogue::new(), DecodeOptions::default());
/// // ＮＨＫニュース, and the same in the narrow size
/// let wide = [0x0E, 0x4E, 0x48, 0x4B, 0x1B, 0x7C, 0xCB, 0xE5, 0xF9, 0xB9];
/// let narrow = [0x89, 0x0E, 0x4E, 0x48, 0x4B, 0x1B, 0x7C, 0xCB, 0xE5, 0xF9, 0xB9];
/// assert_eq!(catalogue.add(&wide, 9, &options)?, "NHKニュース");
/// assert_eq!(catalogue.add(&narrow, 7, &options)?, "NHKニュース");
/// assert_eq!((catalogue.len(), catalogue.distinct()), (2, 1));
/// let found = catalogue.find("NHKニュース");
/// assert_eq!((found.entries, found.smallest), (2, Some(7)));
///
/// catalogue.remove(7)?;
/// let found = catalogue.find("NHKニュース");
/// assert_eq!((found.entries, found.smallest), (1, Some(9)));
/// # Ok::<(), isdb_text::Refused>(())
/// ```
///
/// What it holds are [`Catalogue::BYTES`] bytes, in the form that `include/arib_text.h` tells. Two
/// catalogues of the same entries have the same bytes, in whatever order they were made. The
/// library keeps nothing between two calls, so each call reads these bytes through.
#[derive(Clone, PartialEq, Eq)]
pub struct Catalogue {
    /// Always of that form.
    store: Vec<u8>,
}

/// What is found by a key.
#[derive(Debug, Clone, Copy, Default, PartialEq, Eq)]
pub struct Found {
    /// How many entries have the key.
    pub entries: usize,
    /// The smallest of their numbers; none if there is no entry.
    pub smallest: Option<u32>,
}

impl Catalogue {
    /// How many bytes a catalogue has, whatever it holds.
    pub const BYTES: usize = 266_248;

    /// How many entries a catalogue holds at most.
    pub const ENTRIES: usize = 1_024;

    /// How many bytes the key of an entry has at most.
    pub const KEY: usize = 255;

    /// A catalogue without entries.
    pub fn new() -> Catalogue {
        Catalogue {
            store: vec![0; Catalogue::BYTES],
        }
    }

    /// A catalogue from the bytes of one, as [`Catalogue::as_bytes`] gives them. Bytes of another
    /// length or form, a count that is not right included, are refused with 12.
    ///
    /// ```
    /// use isdb_text::{Catalogue, DecodeOptions};
    /// let mut catalogue = Catalogue::new();
    /// // あい
    /// catalogue.add(&[0xA2, 0xA4], 7, &DecodeOptions::default())?;
    /// let kept = catalogue.as_bytes().to_vec();
    /// assert_eq!(Catalogue::from_bytes(kept.clone())?, catalogue);
    ///
    /// let mut damaged = kept;
    /// damaged[3] = 2;
    /// assert_eq!(Catalogue::from_bytes(damaged).unwrap_err().number, 12);
    /// # Ok::<(), isdb_text::Refused>(())
    /// ```
    pub fn from_bytes(bytes: Vec<u8>) -> Result<Catalogue, Refused> {
        let mut counts = [0; 3];
        match ffi::catalogue_find(&bytes, &[], &mut counts) {
            0 => Ok(Catalogue { store: bytes }),
            number => Err(Refused::new(number, &counts)),
        }
    }

    /// The bytes, to be kept and taken up again by [`Catalogue::from_bytes`].
    pub fn as_bytes(&self) -> &[u8] {
        &self.store
    }

    /// The same, without a copy.
    pub fn into_bytes(self) -> Vec<u8> {
        self.store
    }

    /// Adds a title under a number that no entry has, and gives its key, that of
    /// [`key_with`](crate::key_with). A title that has no key is refused with 3, 10 or 11, as
    /// there; then a number that is present with 12, a key of more than 255 bytes with 13, and any
    /// title while 1,024 entries are present with 14. A refusal leaves the catalogue as it was.
    ///
    /// ```
    /// use isdb_text::{Catalogue, DecodeOptions, Reason};
    /// let (mut catalogue, options) = (Catalogue::new(), DecodeOptions::default());
    /// // Ａ and A
    /// assert_eq!(catalogue.add(&[0x0E, 0x41], 7, &options).unwrap(), "A");
    /// assert_eq!(catalogue.add(&[0x89, 0x0E, 0x41], 8, &options).unwrap(), "A");
    /// let refused = catalogue.add(&[0xA2], 8, &options).unwrap_err();
    /// assert_eq!(refused.reason(), Some(Reason::CatalogueMismatch));
    /// // 86 times あ
    /// let refused = catalogue.add(&[0xA2; 86], 9, &options).unwrap_err();
    /// assert_eq!(refused.reason(), Some(Reason::KeyTooLong));
    /// // あ, with an issue
    /// let refused = catalogue.add(&[0x24, 0xA2], 9, &options).unwrap_err();
    /// assert_eq!(refused.reason(), Some(Reason::HasIssues));
    /// assert_eq!(catalogue.len(), 2);
    /// ```
    pub fn add(
        &mut self,
        title: &[u8],
        number: u32,
        opts: &DecodeOptions,
    ) -> Result<String, Refused> {
        let (call, store) = (opts.call(title), &mut self.store);
        key_by(title, |key, counts| {
            ffi::catalogue_add(call, number, store, key, counts)
        })
    }

    /// Removes the entry of a number. A number that no entry has is refused with 12.
    ///
    /// ```
    /// use isdb_text::{Catalogue, DecodeOptions};
    /// let mut catalogue = Catalogue::new();
    /// catalogue.add(&[0xA2], 7, &DecodeOptions::default()).unwrap();
    /// assert!(catalogue.remove(7).is_ok());
    /// assert_eq!(catalogue.remove(7).unwrap_err().number, 12);
    /// ```
    pub fn remove(&mut self, number: u32) -> Result<(), Refused> {
        match ffi::catalogue_remove(&mut self.store, number) {
            0 => Ok(()),
            refused => Err(Refused::new(refused, &[0])),
        }
    }

    /// The entries that have a key: a text, or any bytes. One of more than 255 bytes none has.
    ///
    /// ```
    /// use isdb_text::{Catalogue, DecodeOptions, Found, key_with};
    /// let (mut catalogue, options) = (Catalogue::new(), DecodeOptions::default());
    /// catalogue.add(&[0xA2, 0x20, 0xA4], 7, &options)?;
    /// // a title is found by its key
    /// let found = catalogue.find(key_with(&[0xA2, 0xA4], &options)?);
    /// assert_eq!(found, Found { entries: 1, smallest: Some(7) });
    /// assert_eq!(catalogue.find("あ"), Found { entries: 0, smallest: None });
    /// # Ok::<(), isdb_text::Refused>(())
    /// ```
    pub fn find(&self, key: impl AsRef<[u8]>) -> Found {
        let mut counts = [0; 3];
        let refused = ffi::catalogue_find(&self.store, key.as_ref(), &mut counts);
        assert_eq!(refused, 0, "the store is of the form");
        let [_, entries, smallest] = counts;
        Found {
            entries,
            smallest: (entries > 0).then_some(smallest as u32),
        }
    }

    /// How many entries there are.
    pub fn len(&self) -> usize {
        self.held(0)
    }

    /// Whether there is none.
    pub fn is_empty(&self) -> bool {
        self.len() == 0
    }

    /// How many different keys they have.
    pub fn distinct(&self) -> usize {
        self.held(4)
    }

    /// The count that is held at a byte.
    fn held(&self, at: usize) -> usize {
        let count = self.store[at..at + 4].try_into().expect("four bytes");
        u32::from_be_bytes(count) as usize
    }
}

impl Default for Catalogue {
    fn default() -> Self {
        Catalogue::new()
    }
}

/// The counts, without the bytes.
impl fmt::Debug for Catalogue {
    fn fmt(&self, f: &mut fmt::Formatter<'_>) -> fmt::Result {
        f.debug_struct("Catalogue")
            .field("len", &self.len())
            .field("distinct", &self.distinct())
            .finish_non_exhaustive()
    }
}
