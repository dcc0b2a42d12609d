//! Subjects with a fault in the catalogue.

use std::collections::BTreeSet;

use compare::call::Call;
use compare::entries::{Entries, HEAD, LONGEST, MOST, PLACE, STORE};
use compare::subject::{CatalogueLent, model};

use crate::faulty::{Faulty, SOUND};

/// Makes each call on a store that was mended.
macro_rules! unasked {
    ($mend:path) => {
        Faulty {
            add: |call, number, lent| {
                let CatalogueLent { store, key, counts } = lent;
                on_mended($mend, store, |store| {
                    model().add(call, number, CatalogueLent { store, key, counts })
                })
            },
            remove: |store, number| on_mended($mend, store, |store| model().remove(store, number)),
            find: |store, key, counts| model().find(&$mend(store), key, counts),
            ..SOUND
        }
    };
}

/// A fault in words, and whether it shows without a full catalogue.
pub type Fault = (&'static str, bool, Faulty);

pub const FAULTS: [Fault; 30] = [
    ("entries in order of arrival", true, Faulty { add: in_order_of_arrival, ..SOUND }),
    ("keys not counted on adding", true, Faulty { add: keys_not_raised, ..SOUND }),
    ("keys counted on every add", true, Faulty { add: keys_always_raised, ..SOUND }),
    ("keys counted without their lengths", true, Faulty { add: keys_padded, ..SOUND }),
    ("a number present before the key's questions", true, Faulty { add: present_first, ..SOUND }),
    ("the form behind the key's questions", true, Faulty { add: form_behind, ..SOUND }),
    ("13 before a number present", true, Faulty { add: long_before_present, ..SOUND }),
    ("14 before 13", false, Faulty { add: full_before_long, ..SOUND }),
    ("14 before a number present", false, Faulty { add: full_before_present, ..SOUND }),
    ("14 for the last entry", false, Faulty { add: full_too_soon, ..SOUND }),
    ("13 for 255 bytes", true, Faulty { add: long_too_soon, ..SOUND }),
    ("the key left by a refused add", true, Faulty { add: key_left, ..SOUND }),
    ("counts left by a refused add", true, Faulty { add: counts_left, ..SOUND }),
    ("a place taken by a refused add", true, Faulty { add: place_taken, ..SOUND }),
    ("a count behind the third", true, Faulty { add: fourth_count, ..SOUND }),
    ("keys kept on removing", true, Faulty { remove: keys_not_lowered, ..SOUND }),
    ("keys lowered on every removal", true, Faulty { remove: keys_always_lowered, ..SOUND }),
    ("a removed place left behind the entries", true, Faulty { remove: place_left, ..SOUND }),
    ("a removed place left among them", true, Faulty { remove: gap_left, ..SOUND }),
    ("an absent number removed", true, Faulty { remove: absent_removed, ..SOUND }),
    ("a find that stops at the first", true, Faulty { find: first_found, ..SOUND }),
    ("the greatest number found", true, Faulty { find: greatest_found, ..SOUND }),
    ("a key cut to 255 bytes", true, Faulty { find: key_cut, ..SOUND }),
    ("zeros behind a key not told from it", true, Faulty { find: zeros_dropped, ..SOUND }),
    ("no counts where none has the key", true, Faulty { find: nothing_left, ..SOUND }),
    ("the held count of keys not asked", true, unasked!(keys_mended)),
    ("what is behind a key not asked", true, unasked!(padding_mended)),
    ("what is behind the entries not asked", true, unasked!(rest_mended)),
    ("the order not asked", true, unasked!(order_mended)),
    ("the length not asked", true, unasked!(length_mended)),
];

/// Makes a call on a mended store, and takes over what an accepted one leaves, as much as there is
/// room for.
fn on_mended(
    mend: fn(&[u8]) -> Vec<u8>,
    store: &mut [u8],
    call: impl FnOnce(&mut [u8]) -> u32,
) -> u32 {
    let mut mended = mend(store);
    let answer = call(&mut mended);
    if answer == 0 {
        store.iter_mut().zip(mended).for_each(|(byte, after)| *byte = after);
    }
    answer
}

/// The number at this byte.
fn number(store: &[u8], at: usize) -> u32 {
    u32::from_be_bytes(store[at..][..4].try_into().unwrap())
}

fn put(store: &mut [u8], at: usize, number: u32) {
    store[at..][..4].copy_from_slice(&number.to_be_bytes());
}

/// The places of the entries.
fn places(store: &[u8]) -> std::slice::ChunksExact<'_, u8> {
    let count = (number(store, 0) as usize).min(MOST);
    store[HEAD..][..count * PLACE].chunks_exact(PLACE)
}

/// The model's add, and then a fault in what an accepted one left; it is given the store before.
fn then(
    (call, number, lent): (Call, u32, CatalogueLent),
    fault: impl FnOnce(&[u8], &mut [u8]),
) -> u32 {
    let CatalogueLent { store, key, counts } = lent;
    let before = store.to_vec();
    let answer = model().add(call, number, CatalogueLent { store, key, counts });
    if answer == 0 {
        fault(&before, store);
    }
    answer
}

fn in_order_of_arrival(call: Call, number: u32, lent: CatalogueLent) -> u32 {
    then((call, number, lent), |_, store| {
        let at = places(store).position(|place| place[..4] == number.to_be_bytes()).unwrap();
        let end = HEAD + PLACE * places(store).len();
        store[HEAD + PLACE * at..end].rotate_left(PLACE);
    })
}

fn keys_not_raised(call: Call, number: u32, lent: CatalogueLent) -> u32 {
    then((call, number, lent), |before, store| store[4..8].copy_from_slice(&before[4..8]))
}

fn keys_always_raised(call: Call, entry: u32, lent: CatalogueLent) -> u32 {
    then((call, entry, lent), |before, store| put(store, 4, number(before, 4) + 1))
}

fn keys_padded(call: Call, entry: u32, lent: CatalogueLent) -> u32 {
    then((call, entry, lent), |_, store| {
        let keys: BTreeSet<&[u8]> = places(store).map(|place| &place[5..]).collect();
        let count = keys.len() as u32;
        put(store, 4, count);
    })
}

/// Refuses with this number, and leaves nothing.
fn refused(lent: CatalogueLent, answer: u32) -> u32 {
    lent.key.fill(0);
    lent.counts.iter_mut().take(3).for_each(|count| *count = 0);
    answer
}

/// Whether a store of the form has the number, and how many entries it has.
fn present(store: &[u8], number: u32) -> bool {
    Entries::of(store).is_ok_and(|entries| entries.key(number).is_some())
}

fn count(store: &[u8]) -> usize {
    Entries::of(store).map_or(0, |entries| entries.len())
}

/// How long the key is, in room enough; 0 if there is none.
fn length(call: Call) -> usize {
    let mut counts = [0; 3];
    model().key(call, &mut vec![0; 300_000], &mut counts);
    counts[1]
}

fn present_first(call: Call, number: u32, lent: CatalogueLent) -> u32 {
    if present(lent.store, number) {
        return refused(lent, 12);
    }
    model().add(call, number, lent)
}

fn form_behind(call: Call, number: u32, lent: CatalogueLent) -> u32 {
    match model().key(call, lent.key, lent.counts) {
        0 => model().add(call, number, lent),
        answer => answer,
    }
}

/// Another number in the place of a refusal's.
fn instead(
    (call, number, lent): (Call, u32, CatalogueLent),
    other: impl FnOnce(u32, &[u8]) -> u32,
) -> u32 {
    let CatalogueLent { store, key, counts } = lent;
    let answer = model().add(call, number, CatalogueLent { store, key, counts });
    other(answer, store)
}

fn long_before_present(call: Call, number: u32, lent: CatalogueLent) -> u32 {
    instead((call, number, lent), |answer, store| {
        let long = answer == 12 && present(store, number) && length(call) > LONGEST;
        if long { 13 } else { answer }
    })
}

fn full_before_long(call: Call, number: u32, lent: CatalogueLent) -> u32 {
    instead(
        (call, number, lent),
        |answer, store| {
            if answer == 13 && count(store) == MOST { 14 } else { answer }
        },
    )
}

fn full_before_present(call: Call, number: u32, lent: CatalogueLent) -> u32 {
    instead(
        (call, number, lent),
        |answer, store| {
            if answer == 12 && count(store) == MOST { 14 } else { answer }
        },
    )
}

/// Refuses with this number what the model accepts.
fn not_accepted(call: Call, number: u32, lent: CatalogueLent, answer: u32) -> u32 {
    let (mut store, mut key) = (lent.store.to_vec(), lent.key.to_vec());
    let copy = CatalogueLent { store: &mut store, key: &mut key, counts: &mut [] };
    match model().add(call, number, copy) {
        0 => refused(lent, answer),
        _ => model().add(call, number, lent),
    }
}

fn full_too_soon(call: Call, number: u32, lent: CatalogueLent) -> u32 {
    if count(lent.store) == MOST - 1 {
        return not_accepted(call, number, lent, 14);
    }
    model().add(call, number, lent)
}

fn long_too_soon(call: Call, number: u32, lent: CatalogueLent) -> u32 {
    if length(call) == LONGEST {
        return not_accepted(call, number, lent, 13);
    }
    model().add(call, number, lent)
}

fn key_left(call: Call, number: u32, lent: CatalogueLent) -> u32 {
    let CatalogueLent { store, key, counts } = lent;
    let answer = model().add(call, number, CatalogueLent { store, key, counts });
    if answer >= 12 {
        model().key(call, key, &mut []);
    }
    answer
}

fn counts_left(call: Call, number: u32, lent: CatalogueLent) -> u32 {
    let CatalogueLent { store, key, counts } = lent;
    let answer = model().add(call, number, CatalogueLent { store, key, counts });
    if answer >= 12 {
        model().key(call, &mut vec![0; key.len()], counts);
    }
    answer
}

fn place_taken(call: Call, number: u32, lent: CatalogueLent) -> u32 {
    let CatalogueLent { store, key, counts } = lent;
    let answer = model().add(call, number, CatalogueLent { store, key, counts });
    if answer >= 12 && Entries::of(store).is_ok() && count(store) < MOST {
        let at = HEAD + PLACE * count(store);
        put(store, at, number);
    }
    answer
}

fn fourth_count(call: Call, number: u32, lent: CatalogueLent) -> u32 {
    let CatalogueLent { store, key, counts } = lent;
    let answer = model().add(call, number, CatalogueLent { store, key, counts });
    counts.iter_mut().skip(3).for_each(|count| *count = 0);
    answer
}

/// The model's removal, and then a fault in what an accepted one left.
fn removed(store: &mut [u8], number: u32, fault: impl FnOnce(&[u8], &mut [u8])) -> u32 {
    let before = store.to_vec();
    let answer = model().remove(store, number);
    if answer == 0 {
        fault(&before, store);
    }
    answer
}

fn keys_not_lowered(store: &mut [u8], number: u32) -> u32 {
    removed(store, number, |before, store| store[4..8].copy_from_slice(&before[4..8]))
}

fn keys_always_lowered(store: &mut [u8], entry: u32) -> u32 {
    removed(store, entry, |before, store| put(store, 4, number(before, 4) - 1))
}

fn place_left(store: &mut [u8], number: u32) -> u32 {
    removed(store, number, |before, store| {
        let at = HEAD + PLACE * (places(before).len() - 1);
        store[at..][..PLACE].copy_from_slice(&before[at..][..PLACE]);
    })
}

fn gap_left(store: &mut [u8], number: u32) -> u32 {
    removed(store, number, |before, store| {
        let at = places(before).position(|place| place[..4] == number.to_be_bytes()).unwrap();
        store[HEAD..].copy_from_slice(&before[HEAD..]);
        store[HEAD + PLACE * at..][..PLACE].fill(0);
    })
}

fn absent_removed(store: &mut [u8], number: u32) -> u32 {
    let answer = model().remove(store, number);
    if Entries::of(store).is_ok() { 0 } else { answer }
}

/// The model's answer, with other counts where they are lent.
fn found(
    (store, key, counts): (&[u8], &[u8], &mut [usize]),
    other: impl FnOnce(&Entries, [usize; 3]) -> [usize; 3],
) -> u32 {
    let mut own = [0; 3];
    let answer = model().find(store, key, &mut own);
    let own = Entries::of(store).map_or(own, |entries| other(&entries, own));
    counts.iter_mut().zip(own).for_each(|(count, n)| *count = n);
    answer
}

fn first_found(store: &[u8], key: &[u8], counts: &mut [usize]) -> u32 {
    found((store, key, counts), |_, [place, count, smallest]| [place, count.min(1), smallest])
}

fn greatest_found(store: &[u8], key: &[u8], counts: &mut [usize]) -> u32 {
    found((store, key, counts), |entries, [place, count, _]| {
        let having = entries.numbers().filter(|&number| entries.key(number) == Some(key));
        [place, count, having.max().unwrap_or(0) as usize]
    })
}

fn key_cut(store: &[u8], key: &[u8], counts: &mut [usize]) -> u32 {
    model().find(store, &key[..key.len().min(LONGEST)], counts)
}

fn zeros_dropped(store: &[u8], key: &[u8], counts: &mut [usize]) -> u32 {
    let end = key.iter().rposition(|&byte| byte != 0).map_or(0, |at| at + 1);
    model().find(store, &key[..end], counts)
}

fn nothing_left(store: &[u8], key: &[u8], counts: &mut [usize]) -> u32 {
    let mut own = [0; 3];
    let answer = model().find(store, key, &mut own);
    if answer != 0 || own[1] > 0 {
        counts.iter_mut().zip(own).for_each(|(count, n)| *count = n);
    }
    answer
}

/// A store of the right length as it is, or with what `mend` does to it.
fn mended(store: &[u8], mend: impl FnOnce(&mut [u8])) -> Vec<u8> {
    let mut mended = store.to_vec();
    if store.len() == STORE {
        mend(&mut mended);
    }
    mended
}

fn keys_mended(store: &[u8]) -> Vec<u8> {
    mended(store, |store| {
        let key = |place: &[u8]| place[5..][..place[4].into()].to_vec();
        let keys = places(store).map(key).collect::<BTreeSet<_>>().len();
        put(store, 4, keys as u32);
    })
}

fn padding_mended(store: &[u8]) -> Vec<u8> {
    mended(store, |store| {
        let count = places(store).len();
        for place in store[HEAD..].chunks_exact_mut(PLACE).take(count) {
            let length = usize::from(place[4]);
            place[5 + length..].fill(0);
        }
    })
}

fn rest_mended(store: &[u8]) -> Vec<u8> {
    mended(store, |store| {
        let end = HEAD + PLACE * places(store).len();
        store[end..].fill(0);
    })
}

fn order_mended(store: &[u8]) -> Vec<u8> {
    mended(store, |store| {
        let mut entries: Vec<Vec<u8>> = places(store).map(<[u8]>::to_vec).collect();
        entries.sort();
        let entries = entries.concat();
        store[HEAD..][..entries.len()].copy_from_slice(&entries);
    })
}

fn length_mended(store: &[u8]) -> Vec<u8> {
    let mut mended = store.to_vec();
    mended.resize(STORE, 0);
    mended
}
