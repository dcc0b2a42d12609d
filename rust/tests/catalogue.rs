//! A catalogue against a map from numbers to keys, whose bytes are written out by the form.

use std::collections::{BTreeMap, BTreeSet};
use std::fmt::Debug;

use isdb_text::ffi::{self, Call};
use isdb_text::{Catalogue, DecodeOptions, Found, Reason, Refused, WidthMode, key_with};

/// What a catalogue holds.
type Entries = BTreeMap<u32, Vec<u8>>;

/// The bytes before the places.
const HEAD: usize = 8;

/// The bytes of a place: number, length, key.
const PLACE: usize = 4 + 1 + Catalogue::KEY;

/// The bytes of a catalogue that holds these entries.
fn store(entries: &Entries) -> Vec<u8> {
    let distinct: BTreeSet<_> = entries.values().collect();
    let mut bytes = Vec::with_capacity(Catalogue::BYTES);
    for count in [entries.len(), distinct.len()] {
        bytes.extend((count as u32).to_be_bytes());
    }
    for (i, (number, key)) in (1..).zip(entries) {
        bytes.extend(number.to_be_bytes());
        bytes.push(key.len() as u8);
        bytes.extend(key);
        bytes.resize(HEAD + PLACE * i, 0);
    }
    bytes.resize(Catalogue::BYTES, 0);
    bytes
}

/// The same, of entries in a list.
fn listed<const N: usize>(entries: [(u32, &[u8]); N]) -> Vec<u8> {
    store(&entries.map(|(number, key)| (number, key.to_vec())).into())
}

/// Whether bytes are those of a catalogue: of the entries that its places give.
fn of_the_form(bytes: &[u8]) -> bool {
    let number = |bytes: &[u8]| u32::from_be_bytes(bytes.try_into().unwrap());
    let count = number(&bytes[..4]) as usize;
    let places = bytes[HEAD..].chunks_exact(PLACE).take(count);
    let entries = places.map(|place| {
        let key = &place[5..][..usize::from(place[4])];
        (number(&place[..4]), key.to_vec())
    });
    bytes == store(&entries.collect())
}

fn refused<T>(number: u32) -> Result<T, Refused> {
    Err(Refused { number, place: 0 })
}

fn found(entries: usize, smallest: u32) -> Found {
    Found {
        entries,
        smallest: Some(smallest),
    }
}

/// Adds with the default options.
fn add(catalogue: &mut Catalogue, title: &[u8], number: u32) -> Result<String, Refused> {
    catalogue.add(title, number, &DecodeOptions::default())
}

/// Makes a call that is refused, and leaves the catalogue as it was.
fn refuses<T: PartialEq + Debug>(
    catalogue: &mut Catalogue,
    number: u32,
    call: impl Fn(&mut Catalogue) -> Result<T, Refused>,
) {
    let before = catalogue.clone();
    assert_eq!(call(catalogue), refused(number));
    assert_eq!(*catalogue, before);
}

/// As many entries as there is room for, numbered 0, 2, 4 and on, all with the key あ.
fn full() -> Catalogue {
    let numbers = (0..Catalogue::ENTRIES as u32).map(|i| 2 * i);
    let entries = numbers.map(|number| (number, "あ".into()));
    Catalogue::from_bytes(store(&entries.collect())).unwrap()
}

#[test]
fn empty() {
    let mut catalogue = Catalogue::new();
    assert!(catalogue.is_empty());
    assert_eq!((catalogue.len(), catalogue.distinct()), (0, 0));
    assert_eq!(catalogue.as_bytes().len(), Catalogue::BYTES);
    assert!(catalogue.as_bytes().iter().all(|&byte| byte == 0));
    assert_eq!(catalogue.find(""), Found::default());
    assert_eq!(catalogue.find("あ"), Found::default());
    refuses(&mut catalogue, 12, |c| c.remove(0));
    let shown = "Catalogue { len: 0, distinct: 0, .. }";
    assert_eq!(format!("{catalogue:?}"), shown);
}

/// Ａ and A, whatever the option, and あい with a space and without.
#[test]
fn both_widths_have_one_key() {
    for width in [WidthMode::CharacterSize, WidthMode::AnnexE] {
        let options = DecodeOptions {
            width,
            ..DecodeOptions::default()
        };
        let mut catalogue = Catalogue::default();
        let mut add = |title: &[u8], number| catalogue.add(title, number, &options).unwrap();
        assert_eq!(add(&[0x0E, 0x41], 9), "A");
        assert_eq!(add(&[0x89, 0x0E, 0x41], 7), "A");
        assert_eq!(add(&[0xA2, 0x20, 0xA4], 5), "あい");
        assert_eq!(add(&[0xA2, 0xA4], 6), "あい");
        assert_eq!((catalogue.len(), catalogue.distinct()), (4, 2));
        assert_eq!(catalogue.find("A"), found(2, 7));
        assert_eq!(catalogue.find(b"A"), found(2, 7));
        assert_eq!(catalogue.find("あい".as_bytes()), found(2, 5));
        assert_eq!(catalogue.find("Ａ"), Found::default());
    }
}

/// 0 is a number like another, and 80000000 is above 7FFFFFFF.
#[test]
fn smallest_and_largest_number() {
    let (mut catalogue, key) = (Catalogue::new(), "あ".as_bytes());
    add(&mut catalogue, &[0xA2], u32::MAX).unwrap();
    assert_eq!(catalogue.find(key), found(1, u32::MAX));
    add(&mut catalogue, &[0xA2], 0x8000_0000).unwrap();
    add(&mut catalogue, &[0xA2], 0x7FFF_FFFF).unwrap();
    assert_eq!(catalogue.find(key), found(3, 0x7FFF_FFFF));
    add(&mut catalogue, &[0xA2], 0).unwrap();
    assert_eq!(catalogue.find(key), found(4, 0));
    let entries = [0, 0x7FFF_FFFF, 0x8000_0000, u32::MAX].map(|number| (number, key));
    assert!(catalogue.as_bytes() == listed(entries));
}

#[test]
fn a_number_is_there_once() {
    let mut catalogue = Catalogue::new();
    add(&mut catalogue, &[0xA2], 7).unwrap();
    refuses(&mut catalogue, 12, |c| add(c, &[0xA2], 7));
    refuses(&mut catalogue, 12, |c| add(c, &[0xA4], 7));
    refuses(&mut catalogue, 12, |c| c.remove(6));
    refuses(&mut catalogue, 12, |c| c.remove(8));
    catalogue.remove(7).unwrap();
    refuses(&mut catalogue, 12, |c| c.remove(7));
    assert_eq!(catalogue, Catalogue::new());
    assert_eq!(add(&mut catalogue, &[0xA4], 7).unwrap(), "い");
    assert_eq!((catalogue.len(), catalogue.distinct()), (1, 1));
}

/// Of a title without a byte, and of a space.
#[test]
fn the_empty_key() {
    let mut catalogue = Catalogue::new();
    assert_eq!(add(&mut catalogue, &[], 2).unwrap(), "");
    assert_eq!(add(&mut catalogue, &[0x20], 1).unwrap(), "");
    assert_eq!(catalogue.distinct(), 1);
    assert_eq!(catalogue.find(""), found(2, 1));
    assert_eq!(catalogue.find([0u8]), Found::default());
}

/// 255 bytes, in kana and with letters, spaces not counted; 256 and 258 are too many.
#[test]
fn the_longest_key() {
    let kana = |count: usize, behind: &[u8]| [&[0xA2].repeat(count), behind].concat();
    let mut catalogue = Catalogue::new();
    let key = add(&mut catalogue, &kana(85, b""), 3).unwrap();
    assert_eq!(key, "あ".repeat(85));
    add(&mut catalogue, &kana(84, b"\x0EABC"), 2).unwrap();
    add(&mut catalogue, &kana(85, &[0x20; 300]), 1).unwrap();
    assert_eq!((catalogue.len(), catalogue.distinct()), (3, 2));
    assert_eq!(catalogue.find(&key), found(2, 1));
    refuses(&mut catalogue, 13, |c| add(c, &kana(86, b""), 4));
    refuses(&mut catalogue, 13, |c| add(c, &kana(85, b"\x0EA"), 4));
    refuses(&mut catalogue, 12, |c| add(c, &kana(86, b""), 3));
    assert_eq!(catalogue.find("あ".repeat(86)), Found::default());
    // Two of them have the key's length in their last eight bits.
    for more in [1, 256, 512] {
        let longer = [key.as_bytes(), &vec![0; more]].concat();
        assert_eq!(catalogue.find(longer), Found::default());
    }
}

/// A text that outgrows the first buffer; its entry is added once.
#[test]
fn the_buffer_grows() {
    let mut catalogue = Catalogue::new();
    let key = add(&mut catalogue, &[0x98, 0x7F, 0xA2], 7).unwrap();
    assert_eq!(key, "あ".repeat(63));
    assert_eq!(catalogue.find(key), found(1, 7));
    refuses(&mut catalogue, 12, |c| add(c, &[0x98, 0x7F, 0xA2], 7));
}

#[test]
fn a_title_without_key() {
    let mut catalogue = Catalogue::new();
    add(&mut catalogue, &[0xA2], 7).unwrap();
    for number in [7, 8] {
        refuses(&mut catalogue, 3, |c| add(c, &[0xA2; 65_536], number));
        refuses(&mut catalogue, 10, |c| add(c, &[0x24, 0xA2], number));
        refuses(&mut catalogue, 11, |c| add(c, &[0x7C, 0x3A], number));
    }
}

/// One entry more is refused, behind the other questions; after a removal there is room for it.
#[test]
fn a_full_catalogue() {
    let mut catalogue = full();
    assert_eq!((catalogue.len(), catalogue.distinct()), (1_024, 1));
    assert_eq!(catalogue.find("あ"), found(1_024, 0));
    for number in [1, 1_023, 2_047, u32::MAX] {
        refuses(&mut catalogue, 14, |c| add(c, &[0xA4], number));
        refuses(&mut catalogue, 13, |c| add(c, &[0xA2; 86], number));
    }
    refuses(&mut catalogue, 12, |c| add(c, &[0xA2; 86], 2_046));
    refuses(&mut catalogue, 11, |c| add(c, &[0x7C, 0x3A], 1));
    for (gone, new, first) in [(1_024, 1, 0), (0, 3_000, 2), (2_046, 0, 2)] {
        catalogue.remove(gone).unwrap();
        refuses(&mut catalogue, 12, |c| c.remove(gone));
        add(&mut catalogue, &[0xA4], new).unwrap();
        assert_eq!(catalogue.find("あ").smallest, Some(first));
        refuses(&mut catalogue, 14, |c| add(c, &[0xA4], 4_000));
    }
    assert_eq!((catalogue.len(), catalogue.distinct()), (1_024, 2));
    assert_eq!(catalogue.find("い"), found(3, 0));
}

/// Every entry there is room for, each with a key of its own, added and removed in mixed order.
#[test]
fn filled_and_emptied() {
    let (mut catalogue, mut entries) = (Catalogue::new(), Entries::new());
    let numbers = || (0..Catalogue::ENTRIES as u32).map(|i| 389 * i % 1_024);
    for number in numbers() {
        let title = [number / 64, number % 64].map(|kana| 0xA1 + kana as u8);
        let key = add(&mut catalogue, &title, number).unwrap();
        entries.insert(number, key.into());
    }
    assert_eq!((catalogue.len(), catalogue.distinct()), (1_024, 1_024));
    assert!(catalogue.as_bytes() == store(&entries));
    for (&number, key) in &entries {
        assert_eq!(catalogue.find(key), found(1, number));
    }
    for number in numbers() {
        catalogue.remove(number).unwrap();
    }
    assert_eq!(catalogue, Catalogue::new());
}

/// Calls in any order, with so few numbers and titles that each is often present.
#[test]
fn as_a_map() {
    let titles: [&[u8]; 7] = [
        &[0x0E, 0x41],
        &[0x89, 0x0E, 0x41],
        &[0x0E, 0x42],
        &[0xA2],
        &[0x20, 0xA2],
        &[],
        &[0xA2; 85],
    ];
    let keys = titles.map(|title| key_with(title, &DecodeOptions::default()).unwrap());
    let (mut catalogue, mut entries) = (Catalogue::new(), Entries::new());
    let mut random = 1_u32;
    let mut below = |n: u32| {
        random = random.wrapping_mul(1_664_525).wrapping_add(1_013_904_223);
        (random >> 16) % n
    };
    for _ in 0..2_000 {
        let (number, i) = (below(24), below(7) as usize);
        let (title, key) = (titles[i], &keys[i]);
        if below(2) == 0 {
            let present = entries.contains_key(&number);
            let expected = if present {
                refused(12)
            } else {
                Ok(key.clone())
            };
            assert_eq!(add(&mut catalogue, title, number), expected);
            entries.entry(number).or_insert_with(|| key.clone().into());
        } else {
            let expected = entries.remove(&number).map_or(refused(12), |_| Ok(()));
            assert_eq!(catalogue.remove(number), expected);
        }
        assert!(catalogue.as_bytes() == store(&entries));
        let having = || entries.iter().filter(|entry| entry.1 == key.as_bytes());
        let expected = Found {
            entries: having().count(),
            smallest: having().next().map(|entry| *entry.0),
        };
        assert_eq!(catalogue.find(key), expected);
    }
}

#[test]
fn kept_and_taken_up() {
    let mut catalogue = Catalogue::new();
    for (title, number) in [(0xA2, 9), (0xA4, 7), (0xA2, 8)] {
        add(&mut catalogue, &[title], number).unwrap();
    }
    let mut taken = Catalogue::from_bytes(catalogue.clone().into_bytes()).unwrap();
    assert_eq!(taken, catalogue);
    assert_eq!(taken.find("あ"), found(2, 8));
    taken.remove(8).unwrap();
    assert_eq!((taken.len(), taken.distinct()), (2, 2));
    assert_ne!(taken, catalogue);
}

/// Bytes that are no text, and those that differ in length alone.
#[test]
fn keys_of_any_bytes() {
    let bytes = listed([
        (1, &[]),
        (2, &[0]),
        (3, &[0xFF; 255]),
        (4, &[0]),
        (5, &[0; 255]),
    ]);
    let catalogue = Catalogue::from_bytes(bytes).unwrap();
    assert_eq!((catalogue.len(), catalogue.distinct()), (5, 4));
    assert_eq!(catalogue.find([]), found(1, 1));
    assert_eq!(catalogue.find([0u8]), found(2, 2));
    assert_eq!(catalogue.find([0xFFu8; 255]), found(1, 3));
    assert_eq!(catalogue.find([0u8; 255]), found(1, 5));
    assert_eq!(catalogue.find([0u8; 254]), Found::default());
}

/// Another length, and each byte of the counts and of six places changed. What is still of the
/// form, with a number or a key of another kind, is taken up.
#[test]
fn damaged() {
    let (a, i) = ("あ".as_bytes(), "い".as_bytes());
    let mut bytes = listed([(1, a), (256, i), (65_536, a), (65_537, &[])]);
    for length in [0, 1, HEAD, HEAD + PLACE, Catalogue::BYTES - 1] {
        let taken = Catalogue::from_bytes(bytes[..length].to_vec());
        assert_eq!(taken, refused(12));
    }
    let longer = [bytes.as_slice(), &[0]].concat();
    assert_eq!(Catalogue::from_bytes(longer), refused(12));
    let last = Catalogue::BYTES - PLACE;
    let (mut right, mut wrong) = (0, 0);
    for at in (0..HEAD + 5 * PLACE).chain(last..Catalogue::BYTES) {
        let byte = bytes[at];
        for change in [0x01, 0x02, 0x80, 0xFF] {
            bytes[at] = byte ^ change;
            let taken = Catalogue::from_bytes(bytes.clone());
            if of_the_form(&bytes) {
                assert!(taken.unwrap().into_bytes() == bytes, "{at}");
                right += 1;
            } else {
                assert_eq!(taken, refused(12), "{at}");
                wrong += 1;
            }
        }
        bytes[at] = byte;
    }
    assert!(right > 0 && wrong > right);
}

#[test]
fn reasons() {
    let mut catalogue = full();
    let mut reason = |title: &[u8], number| {
        let refused = add(&mut catalogue, title, number).unwrap_err();
        refused.reason().unwrap()
    };
    assert_eq!(reason(&[0xA2], 0), Reason::CatalogueMismatch);
    assert_eq!(reason(&[0xA2; 86], 1), Reason::KeyTooLong);
    assert_eq!(reason(&[0xA2], 1), Reason::CatalogueFull);
    let words = "the catalogue has 1,024 entries";
    assert_eq!(reason(&[0xA2], 1).to_string(), words);
    let absent = catalogue.remove(1).unwrap_err();
    assert_eq!(absent.reason(), Some(Reason::CatalogueMismatch));
    assert_eq!(absent.to_string(), "refused 12 0");
    let formless = Catalogue::from_bytes(vec![]).unwrap_err();
    assert_eq!(formless.reason(), Some(Reason::CatalogueMismatch));
}

/// The number that adding to a store answers. After a refusal the store is as it was, the buffer
/// zero, and each of the three counts 0.
fn answer(call: Call, number: u32, store: &mut [u8], room: usize) -> u32 {
    let (before, mut key, mut counts) = (store.to_vec(), vec![0xAA; room], [7; 4]);
    let refused = ffi::catalogue_add(call, number, store, &mut key, &mut counts);
    if refused != 0 {
        assert!(*store == before);
        assert_eq!((key, counts), (vec![0; room], [0, 0, 0, 7]));
    }
    refused
}

/// Form, 1, 2, 3, 8, 10, 11, number, 13, 14: each fails before those behind it.
#[test]
fn the_order_of_questions() {
    let (cells, short) = ([0; 94 * 94], [0; 94 * 94 - 1]);
    let (mut store, last) = (full().into_bytes(), Catalogue::BYTES - 1);
    let mut answers = |cells: &[u16], initial, input: &[u8], number, room| {
        let call = Call {
            cells,
            initial,
            width: 0,
            input,
        };
        let mut damaged = store.clone();
        damaged[last] = 1;
        assert_eq!(answer(call, number, &mut damaged, room), 12);
        assert_eq!(answer(call, number, &mut damaged[..last], room), 12);
        answer(call, number, &mut store, room)
    };
    let long = [0xA2; 65_536];
    assert_eq!(answers(&short, 2, &long, 0, 0), 1);
    assert_eq!(answers(&cells, 2, &long, 0, 0), 2);
    assert_eq!(answers(&cells, 0, &long, 0, 0), 3);
    // U+E290, then あ with an issue.
    let input = [0x7C, 0x3A, 0x24, 0xA2];
    assert_eq!(answers(&cells, 0, &input, 0, 5), 8);
    assert_eq!(answers(&cells, 0, &input, 0, 6), 10);
    assert_eq!(answers(&cells, 0, &input[..2], 0, 3), 11);
    assert_eq!(answers(&cells, 0, &long[..86], 0, 258), 12);
    assert_eq!(answers(&cells, 0, &long[..86], 1, 258), 13);
    assert_eq!(answers(&cells, 0, &long[..85], 1, 255), 14);
}

/// A slice of counts gets as many as it has room for, and keeps what it has beyond them.
#[test]
fn counts() {
    let (cells, mut store) = ([0; 94 * 94], Catalogue::new().into_bytes());
    let call = Call {
        cells: &cells,
        initial: 0,
        width: 0,
        input: &[0xA2, 0x20],
    };
    let kept = |mut counts: [usize; 4], room: usize| {
        counts[room..].fill(7);
        counts
    };
    for room in 0..=4 {
        let (mut key, mut counts, number) = ([0xAA; 8], [7; 4], 5 + room as u32);
        let lent = &mut counts[..room];
        let refused = ffi::catalogue_add(call, number, &mut store, &mut key, lent);
        assert_eq!((refused, counts), (0, kept([0, 3, 0, 7], room)));
        assert_eq!(key, *"あ\0\0\0\0\0".as_bytes());

        let mut counts = [7; 4];
        let refused = ffi::catalogue_find(&store, &key[..3], &mut counts[..room]);
        assert_eq!((refused, counts), (0, kept([0, room + 1, 5, 7], room)));
    }
}

/// A store of another form, or of another length, is not found in and not removed from.
#[test]
fn the_form_of_a_lent_store() {
    let mut store = full().into_bytes();
    let last = store.len() - 1;
    store[last] = 1;
    for lent in [&mut store.clone(), &mut store[..last], &mut []] {
        let (before, mut counts) = (lent.to_vec(), [7; 4]);
        assert_eq!(ffi::catalogue_find(lent, b"", &mut counts), 12);
        assert_eq!(counts, [0, 0, 0, 7]);
        assert_eq!(ffi::catalogue_remove(lent, 0), 12);
        assert!(*lent == before);
    }
}
