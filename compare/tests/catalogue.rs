//! The model of the catalogue: worked examples, and what the runs give it.

use std::collections::BTreeSet;

use compare::call::Call;
use compare::catalogue::{KINDS, damage, given};
use compare::cells;
use compare::entries::{self, Entries, LONGEST, MOST, STORE};
use compare::random::Random;
use compare::subject::{CatalogueLent, model};

/// Entries with these numbers and keys.
fn held<const N: usize>(entries: [(u32, &[u8]); N]) -> Entries {
    entries.into_iter().map(|(number, key)| (number, key.to_vec())).collect()
}

/// Keys AB and あ, the smaller number given last.
fn two() -> Entries {
    held([(0xFFFF_FFFE, "あ".as_bytes()), (0x0102_0304, b"AB")])
}

#[test]
fn bytes_of_two_entries() {
    let store = two().store();
    assert_eq!(store.len(), 266_248);
    assert_eq!(store[..8], [0, 0, 0, 2, 0, 0, 0, 2]);
    assert_eq!(store[8..16], [1, 2, 3, 4, 2, b'A', b'B', 0]);
    assert_eq!(store[268..277], [0xFF, 0xFF, 0xFF, 0xFE, 3, 0xE3, 0x81, 0x82, 0]);
    assert_eq!(store.iter().filter(|&&byte| byte != 0).count(), 2 + 4 + 3 + 4 + 4);
    assert_eq!(Entries::of(&store), Ok(two()));
}

#[test]
fn nothing_is_all_zero() {
    assert_eq!(Entries::of(&[0; STORE]), Ok(Entries::default()));
    assert_eq!(Entries::default().store(), [0; STORE]);
    // An empty key is a key.
    assert_eq!(held([(0, b"")]).store()[..13], [0, 0, 0, 1, 0, 0, 0, 1, 0, 0, 0, 0, 0]);
    assert_eq!(held([(0, b""), (5, b"")]).store()[..8], [0, 0, 0, 2, 0, 0, 0, 1]);
}

#[test]
fn places_of_the_last_entry() {
    let entries: Entries = (0..MOST).map(|n| (n as u32, vec![0x42; LONGEST])).collect();
    let store = entries.store();
    assert_eq!(store[..8], [0, 0, 4, 0, 0, 0, 0, 1]);
    assert_eq!(store[STORE - 260..][..6], [0, 0, 3, 0xFF, 255, 0x42]);
    assert_eq!(store[STORE - 1], 0x42);
    assert_eq!(Entries::of(&store), Ok(entries));
}

/// What is changed in the store of two entries, and whether it is still of the form.
const CHANGES: &[(&[(usize, u8)], bool)] = &[
    (&[], true),
    // The counts.
    (&[(3, 1)], false),
    (&[(3, 3)], false),
    (&[(2, 4), (3, 1)], false),
    (&[(7, 1)], false),
    (&[(7, 3)], false),
    (&[(4, 1)], false),
    // Numbers: below the next or above it, or equal.
    (&[(11, 9)], true),
    (&[(8, 0)], true),
    (&[(8, 0xFF), (9, 0xFF), (10, 0xFF), (11, 0xFF)], false),
    (&[(8, 0xFF), (9, 0xFF), (10, 0xFF), (11, 0xFE)], false),
    (&[(8, 0xFF), (9, 0xFF), (10, 0xFF), (11, 0xFD)], true),
    // Lengths: a zero behind the key may belong to it, a byte of it cannot be left.
    (&[(12, 3)], true),
    (&[(12, 255)], true),
    (&[(12, 1)], false),
    (&[(12, 1), (14, 0)], true),
    // Keys: any bytes, but not the other's with two counted.
    (&[(13, 0)], true),
    (&[(13, 0xFF)], true),
    (&[(12, 3), (13, 0xE3), (14, 0x81), (15, 0x82)], false),
    (&[(12, 3), (13, 0xE3), (14, 0x81), (15, 0x82), (7, 1)], true),
    // Behind the keys and behind the entries.
    (&[(15, 1)], false),
    (&[(267, 1)], false),
    (&[(276, 1)], false),
    (&[(531, 7)], false),
    (&[(532, 1)], false),
    (&[(STORE - 1, 1)], false),
];

#[test]
fn form() {
    for (n, &(changes, is)) in CHANGES.iter().enumerate() {
        let mut store = two().store();
        changes.iter().for_each(|&(at, byte)| store[at] = byte);
        assert_eq!(Entries::of(&store).is_ok(), is, "change {n}");
    }
    let store = two().store();
    for length in [0, 1, 7, 8, 268, 528, STORE - 260, STORE - 1] {
        assert_eq!(Entries::of(&store[..length]), Err(12));
        assert_eq!(Entries::of(&vec![0; length]), Err(12));
    }
    assert_eq!(Entries::of(&[&store[..], &[0]].concat()), Err(12));
}

/// 12 for the form, the key's questions, 12 for the number, 13, 14.
#[test]
fn order_of_refusals() {
    let full: Entries = (0..MOST).map(|n| (n as u32, vec![])).collect();
    let long = [0x41; LONGEST + 1];
    assert_eq!(entries::add(Err(12), Err(1), 5), Err(12));
    assert_eq!(entries::add(Err(12), Ok(&long), 5), Err(12));
    for asked in [1, 2, 3, 8, 10, 11] {
        assert_eq!(entries::add(Ok(full.clone()), Err(asked), 5), Err(asked));
    }
    assert_eq!(entries::add(Ok(full.clone()), Ok(&long), 5), Err(12));
    assert_eq!(entries::add(Ok(full.clone()), Ok(&long), 5_000), Err(13));
    assert_eq!(entries::add(Ok(full.clone()), Ok(&long[1..]), 5_000), Err(14));
    assert_eq!(entries::add(Ok(full.clone()), Ok(&long[1..]), 5), Err(12));
    let one_less = entries::remove(Ok(full.clone()), 7).unwrap();
    assert_eq!(entries::add(Ok(one_less.clone()), Ok(b""), 7), Ok(full));
    assert_eq!(entries::remove(Ok(one_less), 7), Err(12));
    assert_eq!(entries::remove(Err(12), 7), Err(12));
}

#[test]
fn found() {
    let entries = held([(9, b"A"), (4, b"A"), (7, b"A\0"), (0, b""), (u32::MAX, b"B")]);
    let find = |key: &[u8]| entries::find(Ok(&entries), key).unwrap();
    assert_eq!(find(b"A"), [2, 4]);
    assert_eq!(find(b"A\0"), [1, 7]);
    assert_eq!(find(b""), [1, 0]);
    assert_eq!(find(b"B"), [1, 0xFFFF_FFFF]);
    assert_eq!(find(b"AB"), [0, 0]);
    assert_eq!(find(&[0; 70_000]), [0, 0]);
    assert_eq!(entries::find(Err(12), b"A"), Err(12));
    assert_eq!(entries.distinct(), 4);
}

/// Adds with the model, in a buffer and counts that hold something: the answer, the key's buffer
/// and the counts.
fn add(store: &mut [u8], input: &[u8], number: u32) -> (u32, [u8; 5], [usize; 4]) {
    let call = Call { cells: cells::rusts(), initial: 0, width: 0, input };
    let (mut key, mut counts) = ([0xA5; 5], [7; 4]);
    let lent = CatalogueLent { store, key: &mut key, counts: &mut counts };
    let answer = model().add(call, number, lent);
    (answer, key, counts)
}

/// Ａ and A, an issue, a private-use character, a text that does not fit.
#[test]
fn titles() {
    let mut store = vec![0; STORE];
    let one = *b"A\0\0\0\0";
    assert_eq!(add(&mut store, &[0x0E, 0x41], 7), (0, one, [0, 1, 0, 7]));
    assert_eq!(add(&mut store, &[0x89, 0x0E, 0x41], 3), (0, one, [0, 1, 0, 7]));
    assert_eq!(Entries::of(&store), Ok(held([(3, b"A"), (7, b"A")])));
    let before = store.clone();
    assert_eq!(add(&mut store, &[0x0E, 0x41], 3), (12, [0; 5], [0, 0, 0, 7]));
    assert_eq!(add(&mut store, &[0x24, 0xA2], 3), (10, [0; 5], [0, 0, 0, 7]));
    assert_eq!(add(&mut store, &[0x7C, 0x3A], 3), (11, [0; 5], [0, 0, 0, 7]));
    assert_eq!(add(&mut store, &[0xA2, 0xA2], 3), (8, [0; 5], [0, 0, 0, 7]));
    assert_eq!(store, before);
    store[7] = 2;
    assert_eq!(add(&mut store, &[0x24, 0xA2], 9), (12, [0; 5], [0, 0, 0, 7]));
    // A macro's body that is run: 1D 21 charges it.
    let body = [0x95, 0x40, 0x21, 0xA2, 0x95, 0x4F, 0x1B, 0x2B, 0x20, 0x70, 0x1D, 0x21];
    let mut store = vec![0; STORE];
    assert_eq!(add(&mut store, &body, 1), (0, *b"\xE3\x81\x82\0\0", [0, 3, 1, 7]));
}

/// Each kind of damage makes stores of another form, and some leave the form.
#[test]
fn kinds_of_damage() {
    let mut kept = BTreeSet::new();
    for kind in 0..KINDS {
        let forms = (0..40).map(|index| {
            let mut random = Random::new(3, index);
            let entries = given::entries(&mut random, 12);
            Entries::of(&damage(&mut random, &entries, kind)).is_ok()
        });
        let forms: BTreeSet<bool> = forms.collect();
        assert!(forms.contains(&false), "kind {kind}");
        kept.extend(forms.contains(&true).then_some(kind));
    }
    assert!(kept.len() > 4, "{kept:?}");
}

/// What is read from a store is what was written, whatever the keys.
#[test]
fn read_again() {
    for index in 0..200 {
        let mut random = Random::new(1, index);
        let count = random.one_of(&[0, 1, 2, 5, 30, 200]);
        let entries = given::entries(&mut random, count);
        assert_eq!(entries.len(), count);
        assert_eq!(Entries::of(&entries.store()), Ok(entries));
    }
}
