//! Calls that are lent counts and nothing else, asked with and without a fault.

use compare::call::{Call, LONGEST, Rooms};
use compare::cells;
use compare::decode::{AMPLE, Holder};
use compare::difference::Held;
use compare::runs::Worker;

use crate::faulty::{Faulty, SOUND};

/// あ and い; あ, Truncated; あ and a mark without base.
pub const GOOD: [u8; 2] = [0xA2, 0xA4];
pub const TRUNCATED: [u8; 2] = [0x24, 0xA2];
pub const MARK: [u8; 3] = [0xA2, 0x21, 0x2D];

/// Under Si and CharacterSize, with the Rust's table.
pub fn call(input: &[u8]) -> Call<'_> {
    Call { cells: cells::rusts(), initial: 0, width: 0, input }
}

/// The first difference on this input, held against the Rust.
pub fn read(subject: &Faulty, input: &[u8]) -> Option<String> {
    words(Holder::new(subject).read_both(call(input)))
}

pub fn words(held: Held) -> Option<String> {
    held.err().map(|difference| difference.to_string())
}

/// Leaves as many of these counts as there is room for, and refuses nothing.
pub fn leave<const N: usize>(room: &mut [usize], counts: [usize; N]) -> u32 {
    room.iter_mut().zip(counts).for_each(|(count, n)| *count = n);
    0
}

/// Leaves another number in one of the counts, if it is lent.
pub fn change(counts: &mut [usize], index: usize, n: usize) {
    if let Some(count) = counts.get_mut(index) {
        *count = n;
    }
}

static LONG: [u8; LONGEST + 1] = [0xA2; LONGEST + 1];

/// Calls that one of questions 1 to 3 refuses, and its number.
pub fn refused_calls() -> [(Call<'static>, u32); 4] {
    let call = call(&GOOD);
    [
        (Call { cells: &cells::rusts()[1..], initial: 2, ..call }, 1),
        (Call { initial: 2, input: &LONG, ..call }, 2),
        (Call { width: 2, ..call }, 2),
        (Call { input: &LONG, ..call }, 3),
    ]
}

/// The first difference on such a call.
pub fn refused(subject: &Faulty, call: Call, number: u32) -> Option<String> {
    let rooms = Rooms { text: 10, issues: 7 };
    words(Holder::new(subject).refused(call, rooms, number))
}

/// The call as this question lets it through: with the Rust's table, with other options, or with as
/// much as may be read.
pub fn let_through(call: Call, question: u32) -> Call {
    match question {
        1 => Call { cells: cells::rusts(), ..call },
        2 => Call { initial: call.initial.min(1), width: call.width.min(1), ..call },
        _ => Call { input: &call.input[..call.input.len().min(LONGEST)], ..call },
    }
}

/// Counts that do not fit are not written: a call whose second count is wrong is found out where
/// that is lent, and a sound one never.
pub fn fewer_counts(subject: &Faulty, ask: fn(&mut Holder, Call, usize) -> Held) {
    let found = |subject, room| {
        let mut holder = Holder::new(subject);
        holder.read(call(&GOOD));
        ask(&mut holder, call(&GOOD), room).is_err()
    };
    for room in 0..=AMPLE {
        assert!(!found(&SOUND, room));
        assert_eq!(found(subject, room), room > 1);
    }
}
