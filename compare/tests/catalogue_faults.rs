//! A subject with a fault in the catalogue is found out.

mod catalogue_faulty;
mod faulty;
mod found;

use catalogue_faulty::FAULTS;
use compare::call::Call;
use compare::catalogue::{Amount, Holder, Runs, Title, all};
use compare::difference::Held;
use compare::entries::{Entries, STORE};
use compare::runs::Worker;
use compare::subject::{CatalogueLent, Subject, model};
use faulty::{Adding, Faulty, Finding, Removing, SOUND};

/// Whether few runs of each part find a difference.
fn differ(subject: &'static dyn Subject) -> bool {
    let runs = Runs { threads: 1, ..Runs::new(subject, Amount { random: 100 }) };
    !all(&runs)
}

/// The runs find each.
#[test]
fn each_is_found() {
    for (name, _, fault) in &FAULTS {
        assert!(differ(fault), "{name}");
    }
}

/// Ａ and A.
const A: [u8; 2] = [0x0E, 0x41];
const NARROW: [u8; 3] = [0x89, 0x0E, 0x41];

/// The first difference in this call, on a catalogue of two entries with one key.
fn ask(subject: &Faulty, call: impl Fn(&mut Holder) -> Held) -> Option<String> {
    let mut holder = Holder::new(subject);
    let entries: Entries = [(3, b"A".to_vec()), (7, b"A".to_vec())].into_iter().collect();
    holder.begin(0, entries.store());
    call(&mut holder).err().map(|difference| difference.to_string())
}

/// A difference names the call, its number and the store before it.
#[test]
fn words() {
    let (_, _, fault) = &FAULTS[0];
    let words = ask(fault, |holder| holder.add(Title::new(&NARROW, 1))).unwrap();
    let expected = [
        "difference: add: store byte 11 is 3, expected 1\n",
        "input 3 bytes: 890E41\n",
        "number: 1\n",
        "rooms: key 1, counts 3\n",
        "place: call 1 of sequence 0\n",
        "store before: 2 entries, 1 keys: 0000000200000001000000030141",
    ];
    expected.into_iter().for_each(|line| assert!(words.contains(line), "{words}"));
}

#[test]
fn no_fault() {
    assert_eq!(ask(&SOUND, |holder| holder.add(Title::new(&A, 1))), None);
    assert_eq!(ask(&SOUND, |holder| holder.add(Title::new(&A, 3))), None);
    assert_eq!(ask(&SOUND, |holder| holder.remove(3)), None);
    assert_eq!(ask(&SOUND, |holder| holder.remove(4)), None);
    assert_eq!(ask(&SOUND, |holder| holder.find(b"A", 3)), None);
}

/// The model's add, and then a fault in what it left.
fn left((call, number, lent): (Call, u32, CatalogueLent), fault: fn(&mut CatalogueLent)) -> u32 {
    let CatalogueLent { store, key, counts } = lent;
    let answer = model().add(call, number, CatalogueLent { store, key, counts });
    fault(&mut CatalogueLent { store, key, counts });
    answer
}

/// What an add leaves, accepted with 1 and refused with 3.
#[test]
fn faults_in_an_add() {
    let faults: [Adding; 9] = [
        |call, number, lent| model().add(call, number, lent) + 1,
        |call, number, lent| left((call, number, lent), |lent| lent.store[0] = 1),
        |call, number, lent| left((call, number, lent), |lent| lent.store[STORE - 1] = 1),
        |call, number, lent| left((call, number, lent), |lent| lent.key[0] ^= 1),
        |call, number, lent| left((call, number, lent), |lent| lent.key[8] = 1),
        |call, number, lent| left((call, number, lent), |lent| lent.counts[0] = 1),
        |call, number, lent| left((call, number, lent), |lent| lent.counts[1] += 1),
        |call, number, lent| left((call, number, lent), |lent| lent.counts[2] = 1),
        |call, number, lent| left((call, number, lent), |lent| lent.counts[3] = 1),
    ];
    for number in [1, 3] {
        found::each(faults, "input 2 bytes: 0E41\n", |add| {
            ask(&Faulty { add, ..SOUND }, |holder| {
                holder.add(Title { beyond: 6, counts: 4, ..Title::new(&A, number) })
            })
        });
    }
}

/// What a removal leaves, accepted with 3 and refused with 4.
#[test]
fn faults_in_a_removal() {
    let faults: [Removing; 3] = [
        |store, number| model().remove(store, number) + 1,
        |store, number| {
            store[STORE - 1] = 1;
            model().remove(store, number)
        },
        |_, _| 0,
    ];
    for number in [3, 4] {
        found::each(faults, &format!("number: {number}\n"), |remove| {
            ask(&Faulty { remove, ..SOUND }, |holder| holder.remove(number))
        });
    }
}

/// What a find leaves, of a key that two entries have and of one that none has.
#[test]
fn faults_in_a_find() {
    let faults: [Finding; 5] = [
        |store, key, counts| model().find(store, key, counts) + 1,
        |store, key, counts| then((store, key, counts), 0),
        |store, key, counts| then((store, key, counts), 1),
        |store, key, counts| then((store, key, counts), 2),
        |store, key, counts| then((store, key, counts), 3),
    ];
    for key in [&b"A"[..], b"B"] {
        found::each(faults, "difference: find: ", |find| {
            ask(&Faulty { find, ..SOUND }, |holder| holder.find(key, 4))
        });
    }
}

/// The model's find, and then another number in one of the counts.
fn then((store, key, counts): (&[u8], &[u8], &mut [usize]), index: usize) -> u32 {
    let answer = model().find(store, key, counts);
    counts[index] = 9;
    answer
}

/// Counts that are not lent are not written, and a wrong one is found where it is lent.
#[test]
fn fewer_counts() {
    let wrong: Finding = |store, key, counts| {
        let answer = model().find(store, key, counts);
        counts.iter_mut().skip(1).for_each(|count| *count = 9);
        answer
    };
    for counts in 0..=5 {
        assert_eq!(ask(&SOUND, |holder| holder.find(b"A", counts)), None);
        let found = ask(&Faulty { find: wrong, ..SOUND }, |holder| holder.find(b"A", counts));
        assert_eq!(found.is_some(), counts > 1);
    }
}
