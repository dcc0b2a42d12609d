//! The catalogue, as request 8 tells it: a map from numbers to keys. A refusal is its number.

mod store;

use std::collections::{BTreeMap, BTreeSet};

pub use store::{HEAD, PLACE, STORE};

/// "up to 1,024 entries", "a key of at most 255 bytes"
pub const MOST: usize = 1_024;
pub const LONGEST: usize = 255;

/// "each a 32-bit number of the customer's own and a key"
#[derive(Debug, Clone, Default, PartialEq, Eq)]
pub struct Entries(BTreeMap<u32, Vec<u8>>);

/// What a store holds, or 12 for one of another form.
pub type Form<T = Entries> = Result<T, u32>;

impl Entries {
    pub fn len(&self) -> usize {
        self.0.len()
    }

    pub fn is_empty(&self) -> bool {
        self.0.is_empty()
    }

    /// The keys, by rising number.
    pub fn keys(&self) -> impl Iterator<Item = &[u8]> {
        self.0.values().map(Vec::as_slice)
    }

    /// The numbers, rising.
    pub fn numbers(&self) -> impl Iterator<Item = u32> {
        self.0.keys().copied()
    }

    /// The key of this number.
    pub fn key(&self, number: u32) -> Option<&[u8]> {
        self.0.get(&number).map(Vec::as_slice)
    }

    /// Whether an entry has this key.
    pub fn has(&self, key: &[u8]) -> bool {
        self.keys().any(|held| held == key)
    }

    /// How many distinct keys there are.
    pub fn distinct(&self) -> usize {
        self.keys().collect::<BTreeSet<_>>().len()
    }
}

impl FromIterator<(u32, Vec<u8>)> for Entries {
    fn from_iter<I: IntoIterator<Item = (u32, Vec<u8>)>>(entries: I) -> Entries {
        Entries(entries.into_iter().collect())
    }
}

/// "A store of another length or form is 12 before anything else. Question failures of the key come
/// next; then a number already present on adding is 12, an added key over 255 bytes 13, and an add
/// while 1,024 entries are present 14." The key is that of the title, or its questions' refusal.
pub fn add(form: Form, key: Result<&[u8], u32>, number: u32) -> Form {
    let mut entries = form?;
    let key = key?;
    if entries.0.contains_key(&number) {
        return Err(12);
    }
    if key.len() > LONGEST {
        return Err(13);
    }
    if entries.len() == MOST {
        return Err(14);
    }
    entries.0.insert(number, key.to_vec());
    Ok(entries)
}

/// "a number absent on removing is 12"
pub fn remove(form: Form, number: u32) -> Form {
    let mut entries = form?;
    entries.0.remove(&number).ok_or(12u32)?;
    Ok(entries)
}

/// "found by key bytes, giving the count and the smallest number that has it, both 0 if none has"
pub fn find(form: Form<&Entries>, key: &[u8]) -> Form<[usize; 2]> {
    let entries = &form?.0;
    let having = || entries.iter().filter(|(_, held)| *held == key).map(|(&number, _)| number);
    Ok([having().count(), having().min().unwrap_or(0) as usize])
}
