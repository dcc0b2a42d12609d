//! A subject with a fault in its coding is found out.

mod faulty;
mod found;

use compare::call::{Call, CodingRooms};
use compare::cells;
use compare::difference::Held;
use compare::encode::Holder;
use compare::encode::rooms::in_all;
use compare::runs::Worker;
use compare::subject::{CodingLent, Lent};
use faulty::{Faulty, SOUND};

type Fault = fn(&mut CodingLent, &mut u32);

/// A text in rooms as `ask` lends them.
fn ask(coding: Fault, text: &str, ask: impl Fn(&mut Holder, Call) -> Held) -> Option<String> {
    let subject = Faulty { coding, ..SOUND };
    let mut holder = Holder::new(&subject);
    let call = Call { cells: cells::rusts(), initial: 0, width: 0, input: text.as_bytes() };
    holder.code_both(call).unwrap();
    ask(&mut holder, call).err().map(|difference| difference.to_string())
}

/// A text in these rooms.
fn run(coding: Fault, text: &str, rooms: CodingRooms) -> Option<String> {
    ask(coding, text, |holder, call| holder.run(call, rooms))
}

/// あ is A2 and needs eight numbers.
const ROOMS: CodingRooms = CodingRooms { store: 11, coding: 4 };
const TOO_SMALL: CodingRooms = CodingRooms { store: 7, coding: 4 };

#[test]
fn no_fault() {
    assert_eq!(run(|_, _| {}, "あ", ROOMS), None);
    assert_eq!(run(|_, _| {}, "あ", TOO_SMALL), None);
    assert_eq!(run(|_, _| {}, "あ\n\u{301}", ROOMS), None);
}

#[test]
fn faults_in_an_accepted_call() {
    let faults: [Fault; 9] = [
        |lent, _| lent.coding[0] ^= 0x80,
        |lent, _| lent.coding[1] = 0xA5,
        |lent, _| lent.coding[3] = 1,
        |lent, _| lent.store[0] = 1,
        |lent, _| lent.store[10] = 0xA5A5_A5A5,
        |lent, _| lent.counts[0] = 1,
        |lent, _| lent.counts[1] = 2,
        |lent, _| lent.counts[2] = 1,
        |_, refusal| *refusal = 7,
    ];
    found::each(faults, "input 3 bytes: E38182\n", |fault| run(fault, "あ", ROOMS));
}

#[test]
fn faults_in_a_refused_call() {
    let faults: [Fault; 6] = [
        |lent, _| lent.coding[0] = 0xA2,
        |lent, _| lent.store[6] = 1,
        |lent, _| lent.counts[0] = 1,
        |lent, _| lent.counts[1] = 1,
        |lent, _| lent.counts[2] = 1,
        |_, refusal| *refusal = 8,
    ];
    found::each(faults, "input 3 bytes: E38182\n", |fault| run(fault, "あ", TOO_SMALL));
    assert!(run(|lent, _| lent.counts[0] = 3, "あ\n\u{301}", ROOMS).is_some());
}

/// A title that needs 2,158 numbers and has 1,018 states.
const TITLE: &str = "ニュース 7:00";

/// Leaves what a call leaves that is refused with 7.
fn refuse(wrongly: bool, lent: &mut CodingLent, refusal: &mut u32) {
    if wrongly {
        lent.coding.fill(0);
        lent.counts.fill(0);
        *refusal = 7;
    }
}

/// Does not put question 7.
fn accept(wrongly: bool, refusal: &mut u32) {
    if wrongly {
        *refusal = 0;
    }
}

/// Question 7 put wrongly is found out by the rooms of the runs: four numbers for each state, a
/// remainder that is left out, a number too many or too few; a refusal in what once sufficed; one
/// number for each state.
#[test]
fn faults_in_question_7() {
    let faults: [Fault; 6] = [
        |lent, refusal| refuse(lent.store.len() < 4 * 1_018, lent, refusal),
        |lent, refusal| refuse(lent.store.len() / 4 * 4 < 2_158, lent, refusal),
        |lent, refusal| refuse(lent.store.len() < 2_159, lent, refusal),
        |lent, refusal| accept(lent.store.len() == 2_157, refusal),
        |lent, refusal| refuse(lent.store.len() == 4 * 1_018, lent, refusal),
        |lent, refusal| accept(lent.store.len() == 1_018, refusal),
    ];
    let input = "input 17 bytes: E3838BE383A5E383BCE382B920373A3030\n";
    found::each(faults, input, |fault| ask(fault, TITLE, in_all));
    assert_eq!(ask(|_, _| {}, TITLE, in_all), None);
}

/// A subject that finds nothing in any input.
#[test]
fn a_coding_that_does_not_read_back() {
    let nothing = |lent: &mut Lent, _: &mut u32| {
        lent.text.fill(0);
        lent.counts.fill(0);
    };
    let subject = Faulty { reading: nothing, ..SOUND };
    let mut holder = Holder::new(&subject);
    let call = Call { cells: cells::rusts(), initial: 0, width: 0, input: "あ".as_bytes() };
    assert!(holder.code_both(call).is_err());
    assert!(holder.code(call).is_err());
}
