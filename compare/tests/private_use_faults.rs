//! A subject with a fault in its count of private-use characters, or in question 11, is found out.

mod corners;
mod faulty;
mod found;

use compare::call::{Call, Rooms};
use compare::cells;
use compare::decode::Holder;
use compare::inputs;
use compare::key;
use compare::model::Reading;
use compare::private_use::is_private_use;
use compare::random::Random;
use compare::runs::Worker;
use compare::subject::Lent;
use faulty::{Faulty, Keyed, SOUND};

type Fault = fn(&mut Lent, &mut u32);

/// Another count of the characters, where the call is accepted.
fn counted(lent: &mut Lent, number: u32, count: fn(&[char]) -> usize) {
    if number == 0 {
        let text = str::from_utf8(&lent.text[..lent.counts[1]]).unwrap();
        lent.counts[4] = count(&text.chars().collect::<Vec<_>>());
    }
}

/// The characters for which it is so.
fn those(text: &[char], is: fn(char) -> bool) -> usize {
    text.iter().filter(|&&c| is(c)).count()
}

/// The count left out, or 0; U+E000 or U+F8FF not counted.
fn left_out(lent: &mut Lent, _: &mut u32) {
    lent.counts[4] = usize::MAX;
}

fn none(lent: &mut Lent, _: &mut u32) {
    lent.counts[4] = 0;
}

fn first_not_counted(lent: &mut Lent, number: &mut u32) {
    counted(lent, *number, |text| those(text, |c| is_private_use(c) && c != '\u{E000}'));
}

fn last_not_counted(lent: &mut Lent, number: &mut u32) {
    counted(lent, *number, |text| those(text, |c| is_private_use(c) && c != '\u{F8FF}'));
}

/// What stands beside them counted.
fn from_before(lent: &mut Lent, number: &mut u32) {
    counted(lent, *number, |text| those(text, |c| is_private_use(c) || c == '\u{D7FF}'));
}

fn to_behind(lent: &mut Lent, number: &mut u32) {
    counted(lent, *number, |text| those(text, |c| is_private_use(c) || c == '\u{F900}'));
}

/// Placeholders counted; repeats counted once; no more than one counted; bytes in the place of
/// characters.
fn placeholders(lent: &mut Lent, number: &mut u32) {
    counted(lent, *number, |text| those(text, |c| is_private_use(c) || c == '\u{FFFD}'));
}

fn repeats_once(lent: &mut Lent, number: &mut u32) {
    counted(lent, *number, |text| {
        text.chunk_by(|a, b| a == b).filter(|run| is_private_use(run[0])).count()
    });
}

fn at_most_one(lent: &mut Lent, number: &mut u32) {
    counted(lent, *number, |text| those(text, is_private_use).min(1));
}

fn bytes(lent: &mut Lent, number: &mut u32) {
    counted(lent, *number, |text| 3 * those(text, is_private_use));
}

/// Those forgotten that stand behind another character from U+3000 on.
fn first_of_a_run(lent: &mut Lent, number: &mut u32) {
    counted(lent, *number, |text| {
        let runs = text.chunk_by(|&a, &b| a >= '\u{3000}' && b >= '\u{3000}');
        runs.filter(|run| is_private_use(run[0])).count()
    });
}

/// Faults that the Rust's table shows, and those for which another is needed.
const COUNTS: [Fault; 7] =
    [left_out, none, placeholders, repeats_once, at_most_one, bytes, first_of_a_run];
const ENDS: [Fault; 4] = [first_not_counted, last_not_counted, from_before, to_behind];

/// U+D7FF, U+E000, U+F8FF and U+F900 in 16-1 to 16-4, with U+E000 three times, and U+FFFD for 16-5.
const INPUT: [u8; 12] = [0x30, 0x21, 0x98, 0x43, 0x30, 0x22, 0x30, 0x23, 0x30, 0x24, 0x30, 0x25];

/// The first difference on it.
fn run(reading: Fault, rooms: Rooms) -> Option<String> {
    let mut cells = cells::zeros().to_vec();
    cells[cells::index(16, 1)..][..4].copy_from_slice(&[0xD7FF, 0xE000, 0xF8FF, 0xF900]);
    let subject = Faulty { reading, ..SOUND };
    let mut holder = Holder::new(&subject);
    let call = Call { cells: &cells, initial: 0, width: 0, input: &INPUT };
    holder.read(call);
    assert_eq!(holder.reading().counts(), [0, 21, 1, 0, 4]);
    holder.run(call, rooms).err().map(|difference| difference.to_string())
}

const ROOMS: Rooms = Rooms { text: 21, issues: 5 };

#[test]
fn faults_in_an_accepted_call() {
    assert_eq!(run(|_, _| {}, ROOMS), None);
    let input = "input 12 bytes: 302198433022302330243025\n";
    found::each(COUNTS.into_iter().chain(ENDS), input, |fault| run(fault, ROOMS));
}

/// A text and an issue that do not fit: the count is 0.
#[test]
fn faults_in_a_refused_call() {
    for rooms in [Rooms { text: 20, ..ROOMS }, Rooms { issues: 4, ..ROOMS }] {
        assert_eq!(run(|_, _| {}, rooms), None);
        let faults: [Fault; 3] = [left_out, |lent, _| lent.counts[4] = 4, |_, number| *number = 11];
        found::each(faults, "input 12 bytes: 3021", |fault| run(fault, rooms));
    }
}

/// Whether a fault is found on any of the corners, in exact rooms.
fn among_the_corners(reading: Fault) -> bool {
    corners::differ(&Faulty { reading, ..SOUND }, cells::rusts(), |holder, call| {
        holder.run(call, Rooms::exact(holder.reading()))
    })
}

#[test]
fn faults_among_the_corners() {
    assert!(!among_the_corners(|_, _| {}));
    assert!(COUNTS.into_iter().all(among_the_corners));
}

/// Whether it is found on all cells of any of twenty other tables.
fn among_the_tables(reading: Fault) -> bool {
    let subject = Faulty { reading, ..SOUND };
    let (mut holder, input) = (Holder::new(&subject), inputs::every_pair().concat());
    (0..20).any(|index| {
        let cells = cells::other(&mut Random::new(1, index), index);
        let call = Call { cells: &cells, initial: 0, width: 0, input: &input };
        holder.read(call);
        holder.run(call, Rooms::exact(holder.reading())).is_err()
    })
}

#[test]
fn faults_among_the_tables() {
    assert!(!among_the_tables(|_, _| {}));
    assert!(COUNTS.into_iter().chain(ENDS).all(among_the_tables));
}

/// A key by other questions behind questions 1 to 3.
fn by(
    (call, buffer, counts): (Call, &mut [u8], &mut [usize]),
    questions: fn(usize, &Reading) -> u32,
) -> u32 {
    let mut reading = Reading::default();
    call.read(&mut reading);
    let number = questions(buffer.len(), &reading);
    let (key, charge) = key::of(number, &reading);
    buffer.fill(0);
    buffer[..key.len()].copy_from_slice(key.as_bytes());
    counts[..3].copy_from_slice(&[0, key.len(), charge]);
    number
}

/// Question 11 not put.
fn not_put(call: Call, buffer: &mut [u8], counts: &mut [usize]) -> u32 {
    by((call, buffer, counts), |room, reading| match key::questions(room, reading) {
        11 => 0,
        number => number,
    })
}

/// Put before question 10, and before question 8.
fn before_10(call: Call, buffer: &mut [u8], counts: &mut [usize]) -> u32 {
    by((call, buffer, counts), |room, reading| match key::questions(room, reading) {
        10 if reading.private_use() > 0 => 11,
        number => number,
    })
}

fn before_8(call: Call, buffer: &mut [u8], counts: &mut [usize]) -> u32 {
    by((call, buffer, counts), |room, reading| match key::questions(room, reading) {
        8 if reading.private_use() > 0 && reading.issues.is_empty() => 11,
        number => number,
    })
}

/// One character let through; answered with 10.
fn one_let_through(call: Call, buffer: &mut [u8], counts: &mut [usize]) -> u32 {
    by((call, buffer, counts), |room, reading| match key::questions(room, reading) {
        11 if reading.private_use() == 1 => 0,
        number => number,
    })
}

fn as_10(call: Call, buffer: &mut [u8], counts: &mut [usize]) -> u32 {
    by((call, buffer, counts), |room, reading| match key::questions(room, reading) {
        11 => 10,
        number => number,
    })
}

const KEYS: [Keyed; 5] = [not_put, before_10, before_8, one_let_through, as_10];

/// 92-26 alone, and with あ, Truncated.
const ALONE: [u8; 2] = [0x7C, 0x3A];
const WITH_ISSUE: [u8; 4] = [0x7C, 0x3A, 0x24, 0xA2];

/// The first difference in a key with this room.
fn key(subject: &Faulty, input: &[u8], room: usize) -> Option<String> {
    let mut holder = Holder::new(subject);
    let call = Call { cells: cells::rusts(), initial: 0, width: 0, input };
    holder.read(call);
    holder.key(call, room).err().map(|difference| difference.to_string())
}

/// In room for the text, and in a byte less.
#[test]
fn eight_before_ten_before_eleven() {
    let found = |key_by: Keyed| {
        let subject = Faulty { key: key_by, ..SOUND };
        let all = [(&ALONE[..], 3), (&ALONE, 2), (&WITH_ISSUE, 6), (&WITH_ISSUE, 5)];
        all.map(|(input, room)| key(&subject, input, room).is_some())
    };
    assert_eq!(found(SOUND.key), [false; 4]);
    assert_eq!(found(not_put), [true, false, false, false]);
    assert_eq!(found(before_10), [false, false, true, false]);
    assert_eq!(found(before_8), [false, true, false, false]);
    assert_eq!(found(one_let_through), [true, false, false, false]);
    assert_eq!(found(as_10), [true, false, false, false]);
}

/// Something left by a call that question 11 refuses.
#[test]
fn faults_in_a_refused_key() {
    let faults: [Fault; 7] = [
        |lent, _| lent.text[0] = 0xEE,
        |lent, _| lent.text[2] = 0x90,
        |lent, _| lent.counts[0] = 1,
        |lent, _| lent.counts[1] = 3,
        |lent, _| lent.counts[2] = 1,
        |lent, _| lent.counts[3] = 1,
        |_, number| *number = 12,
    ];
    found::each(faults, "input 2 bytes: 7C3A\n", |reading| {
        key(&Faulty { reading, ..SOUND }, &ALONE, 3)
    });
}

/// Every such key is found among the corners, in room for the text or in a byte less.
#[test]
fn keys_among_the_corners() {
    let found = |key: Keyed| {
        corners::differ(&Faulty { key, ..SOUND }, cells::rusts(), |holder, call| {
            let text = holder.reading().text.len();
            holder.key(call, text)?;
            holder.key(call, text.saturating_sub(1))
        })
    };
    assert!(!found(SOUND.key));
    assert!(KEYS.into_iter().all(found));
}
