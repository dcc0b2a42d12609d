//! The bytes of a store: "numbers big-endian: four bytes count the entries, four the distinct keys,
//! then places of number, one byte of length and 255 of key, any bytes; entries stand first by
//! rising number, all else is zero."

use super::{Entries, Form, LONGEST};

/// How many bytes a store has, how many of them the two counts, and how many a place.
pub const STORE: usize = 266_248;
pub const HEAD: usize = 8;
pub const PLACE: usize = 4 + 1 + LONGEST;

impl Entries {
    /// The store that holds them.
    pub fn store(&self) -> Vec<u8> {
        let mut store = vec![0; STORE];
        let (head, places) = store.split_at_mut(HEAD);
        head[..4].copy_from_slice(&(self.len() as u32).to_be_bytes());
        head[4..].copy_from_slice(&(self.distinct() as u32).to_be_bytes());
        for (place, (number, key)) in places.chunks_exact_mut(PLACE).zip(&self.0) {
            place[..4].copy_from_slice(&number.to_be_bytes());
            place[4] = key.len() as u8;
            place[5..][..key.len()].copy_from_slice(key);
        }
        store
    }

    /// What the bytes hold: they are of the form if they are the store of some entries, and then of
    /// those that stand in its first places.
    pub fn of(store: &[u8]) -> Form {
        let entries = Entries::first(store);
        if entries.store() == store { Ok(entries) } else { Err(12) }
    }

    /// As many entries as the first count says, and as there are places.
    fn first(store: &[u8]) -> Entries {
        let Some((head, places)) = store.split_at_checked(HEAD) else { return Entries::default() };
        let entry = |place: &[u8]| (number(place), place[5..][..place[4].into()].to_vec());
        places.chunks_exact(PLACE).take(number(head) as usize).map(entry).collect()
    }
}

/// The number at the beginning of the bytes.
fn number(bytes: &[u8]) -> u32 {
    u32::from_be_bytes([bytes[0], bytes[1], bytes[2], bytes[3]])
}
