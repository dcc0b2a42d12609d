//! Damaged stores. Most are of another form, some by chance still of the form.

use crate::entries::{Entries, HEAD, LONGEST, MOST, PLACE, STORE};
use crate::random::Random;

/// Lengths that no store has.
const LENGTHS: [usize; 12] = [
    0,
    1,
    4,
    HEAD,
    HEAD + PLACE,
    HEAD + 64 * PLACE,
    STORE - PLACE,
    STORE - 1,
    STORE + 1,
    STORE + HEAD,
    STORE + PLACE,
    2 * STORE,
];

/// Counts far from any.
const FAR: [u32; 8] = [0, 1, 256, MOST as u32, MOST as u32 + 1, 1 << 16, 1 << 31, u32::MAX];

/// A store that is being damaged, with numbers of its own, and how many entries and distinct keys it
/// held.
struct Store {
    random: Random,
    bytes: Vec<u8>,
    count: usize,
    keys: usize,
}

/// What a kind of damage does.
type Kind = fn(&mut Store);

const ALL: [Kind; 22] = [
    Store::count_beside,
    Store::count_far,
    Store::keys_beside,
    Store::keys_far,
    Store::number,
    Store::number_of_another,
    Store::number_beside_another,
    Store::length_up,
    Store::length_down,
    Store::length_any,
    Store::key_byte,
    Store::key_of_another,
    Store::padding,
    Store::behind,
    Store::entry_behind,
    Store::entry_left,
    Store::swapped,
    Store::emptied,
    Store::last,
    Store::any,
    Store::two,
    Store::size,
];

/// How many kinds there are.
pub const KINDS: usize = ALL.len();

/// The store of these entries, with damage of this kind.
pub fn damage(random: &mut Random, entries: &Entries, kind: usize) -> Vec<u8> {
    let mut store = Store {
        random: Random::new(random.number(), 0),
        bytes: entries.store(),
        count: entries.len(),
        keys: entries.distinct(),
    };
    ALL[kind](&mut store);
    store.bytes
}

impl Store {
    /// The count of entries, or the count of keys, by one or two up or down.
    fn count_beside(&mut self) {
        self.put_beside(0, self.count as u32);
    }

    fn keys_beside(&mut self) {
        self.put_beside(4, self.keys as u32);
    }

    fn count_far(&mut self) {
        let count = self.random.one_of(&FAR);
        self.put(0, count);
    }

    fn keys_far(&mut self) {
        let keys =
            if self.random.once_in(3) { self.count as u32 } else { self.random.one_of(&FAR) };
        self.put(4, keys);
    }

    /// An entry's number: a byte of it, another entry's, or one beside another entry's.
    fn number(&mut self) {
        let at = self.entry() + self.random.below(4);
        self.change(at);
    }

    fn number_of_another(&mut self) {
        let (from, to) = (self.entry(), self.entry());
        self.bytes.copy_within(from..from + 4, to);
    }

    fn number_beside_another(&mut self) {
        let (from, to) = (self.entry(), self.entry());
        let number = self.bytes[from..][..4].try_into().map_or(0, u32::from_be_bytes);
        let number =
            if self.random.once_in(2) { number.wrapping_add(1) } else { number.wrapping_sub(1) };
        self.put(to, number);
    }

    /// The length of a key.
    fn length_up(&mut self) {
        let at = self.entry() + 4;
        self.bytes[at] = self.bytes[at].wrapping_add(1);
    }

    fn length_down(&mut self) {
        let at = self.entry() + 4;
        self.bytes[at] = self.bytes[at].wrapping_sub(1);
    }

    fn length_any(&mut self) {
        let at = self.entry() + 4;
        self.bytes[at] = self.random.byte(0, 0xFF);
    }

    /// A byte of a key, or the whole key by that of another entry.
    fn key_byte(&mut self) {
        let place = self.entry();
        let length = usize::from(self.bytes[place + 4]).max(1);
        let at = place + 5 + self.random.below(length);
        self.change(at);
    }

    fn key_of_another(&mut self) {
        let (from, to) = (self.entry(), self.entry());
        self.bytes.copy_within(from + 4..from + PLACE, to + 4);
    }

    /// A byte behind a key: the first, the last or any.
    fn padding(&mut self) {
        let place = self.entry();
        let length = usize::from(self.bytes[place + 4]).min(LONGEST - 1);
        let any = self.random.range(length, LONGEST - 1);
        let at = self.random.one_of(&[length, LONGEST - 1, any]);
        self.change(place + 5 + at);
    }

    /// A byte behind the entries; an entry copied behind them, with the counts as they are or one
    /// more; the last one left there.
    fn behind(&mut self) {
        let place = self.free();
        let first = place + self.random.below(PLACE);
        let any = self.random.range(place, STORE - 1);
        let at = self.random.one_of(&[place + 3, place + 4, first, any]);
        self.change(at);
    }

    fn entry_behind(&mut self) {
        let (from, to) = (self.entry(), self.free());
        self.bytes.copy_within(from..from + PLACE, to);
        if self.random.once_in(2) {
            self.put(0, self.count as u32 + 1);
        }
    }

    fn entry_left(&mut self) {
        self.put(0, self.count.saturating_sub(1) as u32);
        if self.random.once_in(2) {
            self.put(4, self.keys.saturating_sub(1) as u32);
        }
    }

    /// Two entries in each other's place; one of zeros.
    fn swapped(&mut self) {
        let (first, second) = (self.entry(), self.entry());
        for at in 0..PLACE {
            self.bytes.swap(first + at, second + at);
        }
    }

    fn emptied(&mut self) {
        let place = self.entry();
        self.bytes[place..][..PLACE].fill(0);
    }

    /// The last byte, any byte, two of them.
    fn last(&mut self) {
        self.change(STORE - 1);
    }

    fn any(&mut self) {
        let at = self.random.below(STORE);
        self.change(at);
    }

    fn two(&mut self) {
        let end = self.free();
        for _ in 0..2 {
            let at = self.random.below(end);
            self.change(at);
        }
    }

    /// Another length, of what there is or with zeros behind.
    fn size(&mut self) {
        let length = self.random.one_of(&LENGTHS);
        self.bytes.resize(length, 0);
    }

    /// The place of an entry, the first if there is none.
    fn entry(&mut self) -> usize {
        HEAD + PLACE * self.random.below(self.count.max(1))
    }

    /// The place behind the entries, the last if they fill the store.
    fn free(&self) -> usize {
        HEAD + PLACE * self.count.min(MOST - 1)
    }

    /// Another byte.
    fn change(&mut self, at: usize) {
        let any = self.random.byte(1, 0xFF);
        self.bytes[at] ^= self.random.one_of(&[1, 0x80, any]);
    }

    fn put(&mut self, at: usize, number: u32) {
        self.bytes[at..][..4].copy_from_slice(&number.to_be_bytes());
    }

    fn put_beside(&mut self, at: usize, number: u32) {
        let other = [number + 1, number + 2, number.wrapping_sub(1), number.wrapping_sub(2)];
        let other = self.random.one_of(&other);
        self.put(at, other);
    }
}
