//! `compare encode-vectors`: ten numbers a case, the text, and the coding.

mod cases;

use super::Holder;
use crate::call::{Answer, CodingRooms, numbered, question};
use crate::coding::Coding;
use crate::runs::Worker;
use crate::subject;
use crate::vectors;

/// No case has more numbers of a store, bytes of a buffer, or bytes of a text.
pub const MOST: CodingRooms = CodingRooms { store: 65_536, coding: 2_048 };
pub const LONGEST: usize = 1_024;

/// One call.
type Case = vectors::Case<CodingRooms>;

/// The file with the first `count` cases of the list. The model's answers are held against the
/// Rust's where the table is the Rust's, and every coding is decoded again.
pub fn file(count: usize) -> Vec<u8> {
    let mut holder = Holder::new(subject::model());
    vectors::file(count, cases::all(), |out, case| put(out, case, answer(&mut holder, case)))
}

/// The model's answer in the rooms of the case.
fn answer<'a>(holder: &'a mut Holder, case: &Case) -> Answer<'a, Coding> {
    let call = case.call();
    question(call.text_questions())?;
    let held = if case.zeros { holder.code(call) } else { holder.code_both(call) };
    held.unwrap_or_else(|difference| panic!("{difference}"));
    let coding = holder.answer()?;
    question(case.rooms.questions(coding))?;
    Ok(coding)
}

fn put(out: &mut Vec<u8>, case: &Case, answer: Answer<Coding>) {
    let CodingRooms { store, coding: room } = case.rooms;
    let nothing = Coding::default();
    let (refusal, coding) = numbered(answer, &nothing);
    case.put(out, [store, room], refusal, &[coding.bytes.len(), coding.gap]);
    out.extend_from_slice(&coding.bytes);
}
