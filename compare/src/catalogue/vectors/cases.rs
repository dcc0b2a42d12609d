//! The list of calls: a sequence on one store, then stores that are loaded, damaged ones first.

use super::{Case, Kind};
use crate::catalogue::given::{ISSUE, MACRO, PRIVATE_USE, letters, repeated};
use crate::entries::{Entries, HEAD, LONGEST, PLACE, STORE};
use crate::vectors;

/// Room for the text of a letter or two, and for that of 256 full-width ones.
const FEW: usize = 8;
const MANY: usize = 3 * (LONGEST + 1);

/// The whole list.
pub fn all() -> Vec<Case> {
    let mut list = sequence();
    list.extend(damaged());
    list.extend(other_lengths());
    list.extend(any_bytes());
    list
}

/// From nothing to five entries and back.
fn sequence() -> Vec<Case> {
    let (a, b) = (repeated(false, 1), letters(false, b"B"));
    let with = |behind: &[u8]| [&a, behind].concat();
    let kanji = [0x34, 0x41, 0x23, 0x41, 0x3B, 0x7A];
    vec![
        find(b"").on(vec![0; STORE]),
        // One key in both widths, the smaller number second; another key between them.
        add(7, &a, 3),
        add(3, &repeated(true, 1), FEW),
        find(b"A"),
        add(5, &b, FEW),
        find(b"A\0"),
        // The key's questions before the number, the number before the key's length.
        add(5, &a, 3),
        add(5, &a, 2),
        add(5, &with(&ISSUE), FEW),
        add(5, &with(&PRIVATE_USE), FEW),
        add(5, &a, FEW).under(2, 0),
        add(5, &repeated(false, LONGEST + 1), MANY),
        add(6, &repeated(false, LONGEST + 1), MANY),
        add(6, &repeated(false, LONGEST + 1), MANY - 1),
        add(6, &repeated(false, LONGEST), MANY),
        find(&[b'A'; LONGEST]),
        find(&[b'A'; LONGEST + 1]),
        // A key that another entry keeps, and then not.
        remove(7),
        find(b"A"),
        remove(3),
        remove(3),
        remove(6),
        // Empty keys, a key with a charge, and the least and the greatest number.
        add(0, b"", 0),
        add(9, &[0x20, 0x0D], 4),
        add(6, &MACRO, 6),
        add(u32::MAX, &kanji, 9).by_jis_tab().under(1, 1),
        find(b""),
        find("漢A字".as_bytes()),
        remove(0),
        find(b""),
        remove(u32::MAX),
        remove(5),
        remove(6),
        remove(9),
    ]
}

/// Each call where the form is not kept, by one thing each.
fn damaged() -> Vec<Case> {
    let issue = [&repeated(false, 1)[..], &ISSUE].concat();
    let good = repeated(false, 1);
    vec![
        // The held count of keys, before the key's questions and the number.
        add(5, &good, FEW).on(two(|store| store[7] = 1)),
        add(3, &issue, FEW).on(two(|store| store[7] = 3)),
        find(b"A").on(two(|store| store[7] = 1)),
        find(b"").on([&[0; 7][..], &[1], &[0; STORE - 8]].concat()),
        // What is behind a key.
        remove(3).on(two(|store| store[HEAD + 6] = 1)),
        find(b"A").on(two(|store| store[HEAD + PLACE - 1] = 0x80)),
        find(b"B").on(two(|store| store[HEAD + 4] = 0)),
        // The order, and equal numbers.
        find(b"A").on(two(|store| store[HEAD + 3] = 8)),
        remove(7).on(two(|store| store[HEAD + 3] = 7)),
        // What is behind the entries.
        add(5, &good, FEW).on(two(|store| store[HEAD + 2 * PLACE + 3] = 9)),
        find(b"A").on(two(|store| store[HEAD + 2 * PLACE + 100] = 1)),
        find(b"A").on(two(|store| store[..8].copy_from_slice(&[0, 0, 0, 1, 0, 0, 0, 1]))),
        remove(3).on(two(|store| store[3] = 3)),
        find(b"B").on(two(|store| store[..4].copy_from_slice(&[0, 0, 4, 1]))),
    ]
}

/// Stores of other lengths.
fn other_lengths() -> Vec<Case> {
    let cut = |length: usize| {
        let mut store = two(|_| {});
        store.resize(length, 0);
        store
    };
    let good = repeated(false, 1);
    vec![
        add(5, &good, FEW).on(cut(STORE - 1)),
        add(5, &good, FEW).under(3, 0).on(cut(STORE + 1)),
        find(b"A").on(cut(STORE + 1)),
        remove(3).on(vec![0; HEAD]),
        find(b"").on(vec![]),
    ]
}

/// Keys of any bytes: a zero that belongs to a key, and keys that begin alike.
fn any_bytes() -> Vec<Case> {
    let keys: [(u32, &[u8]); 4] = [(1, &[0]), (2, &[0xFF, 0]), (4, &[]), (8, &[0xFF])];
    let entries: Entries = keys.into_iter().map(|(number, key)| (number, key.to_vec())).collect();
    vec![
        find(b"A\0").on(two(|store| store[HEAD + 4] = 2)),
        add(9, &repeated(true, 1), 1),
        find(&[0]).on(entries.store()),
        find(&[0xFF]),
        remove(8),
        add(3, b"", FEW),
        find(b""),
    ]
}

/// The store of A and B, 3 and 7, with some damage.
fn two(damage: fn(&mut [u8])) -> Vec<u8> {
    let entries: Entries = [(3, b"A".to_vec()), (7, b"B".to_vec())].into_iter().collect();
    let mut store = entries.store();
    damage(&mut store);
    store
}

/// A title with a table of zeros, under Si and CharacterSize, with so much room.
fn add(number: u32, title: &[u8], room: usize) -> Case {
    Case { kind: Kind::Add, number, given: given(title, room), loaded: None }
}

fn remove(number: u32) -> Case {
    Case { kind: Kind::Remove, number, given: given(&[], 0), loaded: None }
}

fn find(key: &[u8]) -> Case {
    Case { kind: Kind::Find, number: 0, given: given(key, 0), loaded: None }
}

fn given(input: &[u8], rooms: usize) -> vectors::Case<usize> {
    vectors::Case { zeros: true, initial: 0, width: 0, input: input.to_vec(), rooms }
}

impl Case {
    fn under(mut self, initial: u32, width: u32) -> Case {
        (self.given.initial, self.given.width) = (initial, width);
        self
    }

    fn by_jis_tab(mut self) -> Case {
        self.given.zeros = false;
        self
    }

    fn on(mut self, store: Vec<u8>) -> Case {
        self.loaded = Some(store);
        self
    }
}
