//! A subject with a fault is found out.

mod corners;
mod faulty;
mod found;

use compare::call::{Call, Rooms};
use compare::cells;
use compare::decode::Holder;
use compare::model::ISSUE;
use compare::runs::Worker;
use compare::subject::Lent;
use compare::tally::Positions;
use faulty::{Faulty, SOUND};

type Fault = fn(&mut Lent, &mut u32);

/// あ, Truncated at 0.
fn run(reading: Fault, rooms: Rooms) -> Option<String> {
    run_on(reading, &[0x24, 0xA2], rooms)
}

fn run_on(reading: Fault, input: &[u8], rooms: Rooms) -> Option<String> {
    let subject = Faulty { reading, ..SOUND };
    let mut holder = Holder::new(&subject);
    let call = Call { cells: cells::rusts(), initial: 0, width: 0, input };
    holder.read_both(call).unwrap();
    holder.run(call, rooms).err().map(|difference| difference.to_string())
}

const ROOMS: Rooms = Rooms { text: 10, issues: 7 };
const TOO_SMALL: Rooms = Rooms { text: 2, issues: 7 };

#[test]
fn no_fault() {
    assert_eq!(run(|_, _| {}, ROOMS), None);
    assert_eq!(run(|_, _| {}, TOO_SMALL), None);
}

#[test]
fn faults_in_an_accepted_call() {
    let faults: [Fault; 10] = [
        |lent, _| lent.text[2] ^= 1,
        |lent, _| lent.text[9] = 0xA5,
        |lent, _| lent.issues[1] = 5,
        |lent, _| lent.issues[4] = 3,
        |lent, _| lent.issues[6] = 0xA5A5_A5A5,
        |lent, _| lent.counts[0] = 1,
        |lent, _| lent.counts[2] = 0,
        |lent, _| lent.counts[3] = 1,
        |lent, _| lent.counts[4] = 1,
        |_, refusal| *refusal = 8,
    ];
    found::each(faults, "input 2 bytes: 24A2\n", |fault| run(fault, ROOMS));
}

#[test]
fn faults_in_a_refused_call() {
    let faults: [Fault; 5] = [
        |lent, _| lent.text[0] = 0xE3,
        |lent, _| lent.issues[1] = 4,
        |lent, _| lent.counts[1] = 3,
        |lent, _| lent.counts[4] = 1,
        |_, refusal| *refusal = 9,
    ];
    found::each(faults, "input 2 bytes: 24A2\n", |fault| run(fault, TOO_SMALL));
}

/// あ; a mark; an undefined control while the mark waits; U+FFFD, which takes it; い; a mark that
/// waits to the end. The issues are at 3, 3 and 11 of the text.
const PLACED: [u8; 9] = [0xA2, 0x21, 0x2D, 0xA0, 0x29, 0x21, 0xA4, 0x21, 0x2D];
const PLACED_ROOMS: Rooms = Rooms { text: 13, issues: 3 * ISSUE };

/// The position of an issue.
fn position<'a>(lent: &'a mut Lent, issue: usize) -> &'a mut u32 {
    lent.issues.chunks_exact_mut(ISSUE).nth(issue).unwrap().last_mut().unwrap()
}

/// Each issue counts once, in however many rooms its position is compared.
#[test]
fn no_fault_in_the_positions() {
    let mut holder = Holder::new(&SOUND);
    let call = Call { cells: cells::rusts(), initial: 0, width: 0, input: &PLACED };
    holder.read_both(call).unwrap();
    let positions = holder.reading().issues.iter().map(|&[.., position]| position);
    assert_eq!(positions.collect::<Vec<_>>(), [3, 3, 11]);
    holder.run(call, PLACED_ROOMS).unwrap();
    holder.run(call, Rooms { text: 20, issues: 20 }).unwrap();
    let Positions { compared, behind } = holder.tally.positions;
    assert_eq!((compared, behind), (3, 3));
}

/// Waiting marks counted; behind the placeholder, without its mark and with it; behind the marks
/// that are released; in characters; the offset.
#[test]
fn faults_in_a_position() {
    let faults: [Fault; 9] = [
        |lent, _| *position(lent, 0) = 5,
        |lent, _| *position(lent, 1) = 5,
        |lent, _| *position(lent, 1) = 6,
        |lent, _| *position(lent, 1) = 8,
        |lent, _| *position(lent, 2) = 13,
        |lent, _| *position(lent, 0) = 1,
        |lent, _| *position(lent, 2) = 4,
        |lent, _| *position(lent, 1) = 4,
        |lent, _| *position(lent, 2) = 0,
    ];
    found::each(faults, "input 9 bytes: A2212DA02921A4212D\n", |fault| {
        run_on(fault, &PLACED, PLACED_ROOMS)
    });
}

/// Each issue's position by its kind, its position and the text.
fn positions(lent: &mut Lent, place: fn(u32, usize, &str) -> usize) {
    let text = str::from_utf8(lent.text).unwrap();
    for issue in lent.issues.chunks_exact_mut(ISSUE) {
        let [_, kind, .., position] = issue else { unreachable!() };
        *position = place(*kind, *position as usize, text) as u32;
    }
}

/// The same faults throughout are found among the corners.
#[test]
fn faults_in_positions_among_the_corners() {
    let found = |reading: Fault| {
        corners::differ(&Faulty { reading, ..SOUND }, cells::rusts(), |holder, call| {
            holder.run(call, Rooms::exact(holder.reading()))
        })
    };
    assert!(!found(|lent, _| positions(lent, |_, at, _| at)));
    let faults: [Fault; 4] = [
        |lent, _| positions(lent, |_, at, text| text[..at].chars().count()),
        |lent, _| positions(lent, |kind, at, _| if let 5..=7 = kind { at + 3 } else { at }),
        |lent, _| positions(lent, |kind, at, _| if kind == 12 { at + 2 } else { at }),
        |lent, _| positions(lent, |_, _, _| 0),
    ];
    assert!(faults.into_iter().all(found));
}

/// A lone single shift and an undefined control in nine numbers, of which four are a remainder.
#[test]
fn a_remainder_holds_no_issue() {
    let two = |fault: Fault| run_on(fault, &[0x19, 0xA0], Rooms { text: 0, issues: 2 * ISSUE - 1 });
    assert_eq!(two(|_, refusal| assert_eq!(*refusal, 9)), None);
    let faults: [Fault; 3] =
        [|_, refusal| *refusal = 0, |lent, _| lent.issues[8] = 160, |lent, _| lent.counts[2] = 1];
    found::each(faults, "input 2 bytes: 19A0\n", two);
}

/// あ い: seven bytes of text, the key has six.
fn key(reading: Fault, input: &[u8], room: usize) -> Option<String> {
    let subject = Faulty { reading, ..SOUND };
    let mut holder = Holder::new(&subject);
    let call = Call { cells: cells::rusts(), initial: 0, width: 1, input };
    holder.read(call);
    holder.key(call, room).err().map(|difference| difference.to_string())
}

const SPACED: [u8; 3] = [0xA2, 0x20, 0xA4];

#[test]
fn no_fault_in_a_key() {
    assert_eq!(key(|_, _| {}, &SPACED, 7), None);
    assert_eq!(key(|_, _| {}, &SPACED, 6), None);
    assert_eq!(key(|_, _| {}, &[0x24, 0xA2], 3), None);
}

#[test]
fn faults_in_a_key() {
    let faults: [Fault; 8] = [
        |lent, _| lent.text[5] ^= 1,
        |lent, _| lent.text[6] = 0xA5,
        |lent, _| lent.counts[0] = 1,
        |lent, _| lent.counts[1] = 7,
        |lent, _| lent.counts[2] = 1,
        |lent, _| lent.counts[3] = 0,
        |lent, _| lent.counts[4] = 0,
        |_, refusal| *refusal = 8,
    ];
    found::each(faults, "input 3 bytes: A220A4\n", |fault| key(fault, &SPACED, 7));
}

/// The key would fit where its text does not; 8 comes before 10.
#[test]
fn faults_in_a_refused_key() {
    assert!(key(|_, refusal| *refusal = 0, &SPACED, 6).is_some());
    assert!(key(|lent, _| lent.text[0] = 0xE3, &SPACED, 6).is_some());
    assert!(key(|lent, _| lent.counts[1] = 6, &SPACED, 6).is_some());
    assert!(key(|_, refusal| *refusal = 8, &[0x24, 0xA2], 3).is_some());
    assert!(key(|_, refusal| *refusal = 10, &[0x24, 0xA2], 2).is_some());
}

/// 1B 21 40 is unknown; the Rust has its bytes.
#[test]
fn a_wrong_part_of_the_input() {
    let mut holder = Holder::new(&SOUND);
    let call = Call { cells: cells::rusts(), initial: 0, width: 0, input: &[0x1B, 0x21, 0x40] };
    assert!(holder.read_both(call).is_err());
    assert!(holder.part(&[0x1B], 0, 1, [0, 1]).is_err());
}
