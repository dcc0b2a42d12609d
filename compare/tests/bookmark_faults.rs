//! A subject with a fault in bookmarks is found out.

mod bookmark_faulty;
mod faulty;
mod found;

use bookmark_faulty::faults;
use compare::bookmark::{STORE, named};
use compare::bookmarks::{Amount, Holder, Lying, Rest, Runs, Setting, all, quick};
use compare::call::Call;
use compare::cells;
use compare::runs::Worker;
use compare::subject::{Lent, Subject, model};
use faulty::{Faulty, Returning, SOUND, Setting as Sets};

fn runs(subject: &'static dyn Subject, lying: Lying) -> Runs {
    Runs { threads: 1, ..Runs::new((subject, lying), Amount { random: 40 }) }
}

/// The runs find each.
#[test]
fn each_is_found() {
    for (name, _, fault) in faults() {
        assert!(!all(&runs(fault, Lying::Guarded)), "{name}");
    }
}

/// The quick run finds many; it finds nothing in the model.
#[test]
fn quick_run() {
    assert!(quick(&runs(model(), Lying::Alone)));
    let found = faults().filter(|(_, _, fault)| !quick(&runs(fault, Lying::Alone))).count();
    assert!(found > 50, "{found}");
}

/// あ, a mark, an undefined control, い, an undefined control, a mark.
const INPUT: [u8; 8] = [0xA2, 0x21, 0x2D, 0xA0, 0xA4, 0xA0, 0x21, 0x2D];

fn call() -> Call<'static> {
    Call { cells: cells::rusts(), initial: 0, width: 0, input: &INPUT }
}

/// The first difference in a set at this place, behind which is another bookmark.
fn set(subject: &Faulty, place: usize) -> Option<String> {
    let mut holder = Holder::new((subject, Lying::Guarded));
    let mut store = vec![0; STORE];
    model().set(call(), 0, 4, &mut store, &mut []);
    holder.begin(7);
    holder.read(call()).unwrap();
    holder.load(store);
    let setting = Setting { counts: 2, ..Setting::new(call(), place, 3) };
    holder.set(setting).err().map(|difference| difference.to_string())
}

/// The first difference in a return to behind the mark, with this name and so much beyond.
fn go_on(subject: &Faulty, name: u32, beyond: [isize; 2]) -> Option<String> {
    let mut holder = Holder::new((subject, Lying::Guarded));
    holder.begin(7);
    holder.read(call()).unwrap();
    holder.set(Setting::new(call(), 3, 3)).unwrap();
    let rest = Rest { beyond, counts: 6, ..Rest::new(call(), name) };
    holder.go_on(rest).err().map(|difference| difference.to_string())
}

#[test]
fn no_fault() {
    for place in 0..10 {
        assert_eq!(set(&SOUND, place), None);
    }
    for (name, beyond) in [(3, [0, 0]), (3, [-1, 0]), (3, [0, -1]), (2, [9, 9]), (16, [9, 9])] {
        assert_eq!(go_on(&SOUND, name, beyond), None);
    }
}

/// A difference names the call, the place, the bookmark before it, and what was answered.
#[test]
fn words() {
    let fault: Sets = |call, place, name, store, counts| {
        let answer = model().set(call, place, name, store, counts);
        store[3 * 287 + 11] += 1;
        answer
    };
    let found = set(&Faulty { set: fault, ..SOUND }, 3).unwrap();
    let expected = [
        "difference: set: number of the store 872 is 2, expected 1\n",
        "input 8 bytes: A2212DA0A4A0212D\n",
        "place: 3\nname: 3\n",
        "call: call 1 of sequence 7\n",
        "store before: 4592 numbers, first ones [0, 0, 0, 0, 1, 0,",
    ];
    expected.into_iter().for_each(|line| assert!(found.contains(line), "{found}"));
    let fault: Returning = |call, name, store, lent| {
        lent.text[0] ^= 1;
        model().go_on(call, name, store, Lent { text: &mut [], ..lent })
    };
    let found = go_on(&Faulty { go_on: fault, ..SOUND }, 3, [0, 0]).unwrap();
    let expected = [
        "difference: return: refusal 8, expected 0\n",
        "rooms: text 7, issues 15\ncounts lent: 6\n",
        "model: text 7 issues 3 charged 0 private-use 0: E38184CC81CC81 3,2,160,0,3",
        "this one 0:1 1:3 3:1 4:2 5:3 7:2 10:1 11:1 12:769 285:3\n",
    ];
    expected.into_iter().for_each(|line| assert!(found.contains(line), "{found}"));
}

/// The model's set, and then another number in the store or the counts.
fn then(given: (Call, usize, u32, &mut [u32], &mut [usize]), at: usize, count: usize) -> u32 {
    let (call, place, name, store, counts) = given;
    let answer = model().set(call, place, name, store, counts);
    store.iter_mut().skip(at).take(1).for_each(|number| *number ^= 1);
    counts.iter_mut().skip(count).take(1).for_each(|number| *number = 9);
    answer
}

/// No number of the store, and no count.
const NO: usize = usize::MAX;

/// What a set leaves, accepted and refused.
#[test]
fn faults_in_a_set() {
    let faults: [Sets; 7] = [
        |call, place, name, store, counts| model().set(call, place, name, store, counts) + 1,
        |call, place, name, store, counts| then((call, place, name, store, counts), 0, NO),
        |call, place, name, store, counts| then((call, place, name, store, counts), 3 * 287, NO),
        |call, place, name, store, counts| then((call, place, name, store, counts), 4 * 287, NO),
        |call, place, name, store, counts| then((call, place, name, store, counts), STORE - 1, NO),
        |call, place, name, store, counts| then((call, place, name, store, counts), NO, 0),
        |call, place, name, store, counts| then((call, place, name, store, counts), NO, 1),
    ];
    for place in [3, 2] {
        found::each(faults, "input 8 bytes: A2212DA0A4A0212D\n", |set_fault| {
            set(&Faulty { set: set_fault, ..SOUND }, place)
        });
    }
}

/// The model's return, and then a fault in what it left.
fn left((call, name, store, lent): (Call, u32, &[u32], Lent), fault: fn(&mut Lent)) -> u32 {
    let Lent { text, issues, counts } = lent;
    let answer = model().go_on(call, name, store, Lent { text, issues, counts });
    fault(&mut Lent { text, issues, counts });
    answer
}

/// What a return leaves, accepted, refused with 15, with 8 and with 9.
#[test]
fn faults_in_a_return() {
    let faults: [Returning; 10] = [
        |call, name, store, lent| model().go_on(call, name, store, lent) + 1,
        |call, name, store, lent| left((call, name, store, lent), |lent| lent.text[0] ^= 1),
        |call, name, store, lent| left((call, name, store, lent), |lent| lent.text[5] ^= 1),
        |call, name, store, lent| left((call, name, store, lent), |lent| lent.issues[4] ^= 1),
        |call, name, store, lent| left((call, name, store, lent), |lent| lent.issues[9] ^= 1),
        |call, name, store, lent| left((call, name, store, lent), |lent| lent.counts[0] = 1),
        |call, name, store, lent| left((call, name, store, lent), |lent| lent.counts[2] += 1),
        |call, name, store, lent| left((call, name, store, lent), |lent| lent.counts[3] += 1),
        |call, name, store, lent| left((call, name, store, lent), |lent| lent.counts[4] += 1),
        |call, name, store, lent| left((call, name, store, lent), |lent| lent.counts[5] = 0),
    ];
    for (name, beyond) in [(3, [0, 0]), (3, [9, 9]), (2, [9, 10]), (3, [-1, 0]), (3, [0, -1])] {
        found::each(faults, "difference: return: ", |fault| {
            go_on(&Faulty { go_on: fault, ..SOUND }, name, beyond)
        });
    }
}

/// What was set is what the model sets.
#[test]
fn the_store_is_kept() {
    let mut holder = Holder::new((&SOUND, Lying::Guarded));
    holder.begin(0);
    holder.read(call()).unwrap();
    assert!(holder.set(Setting::new(call(), 4, 15)).unwrap());
    assert!(!holder.set(Setting::new(call(), 2, 15)).unwrap());
    let mut store = vec![0; STORE];
    assert_eq!(model().set(call(), 4, 15, &mut store, &mut []), 0);
    assert_eq!((holder.store(), named(&store, 15)[1]), (&store[..], 4));
}
