//! `compare vectors`: twelve numbers a case, the input, the text, and the numbers of the issues.

mod cases;

use super::Holder;
use crate::call::{Answer, Rooms, numbered, question};
use crate::model::Reading;
use crate::runs::Worker;
use crate::subject;
use crate::vectors::{self, numbers};

pub use cases::MOST;

/// One call.
type Case = vectors::Case<Rooms>;

/// The file with the first `count` cases of the list. The model's answers are held against the
/// Rust's where the table is the Rust's, but for the issues' positions, which the Rust has not.
pub fn file(count: usize) -> Vec<u8> {
    let mut holder = Holder::new(subject::model());
    vectors::file(count, cases::all(), |out, case| put(out, case, answer(&mut holder, case)))
}

/// The model's answer in the rooms of the case.
fn answer<'a>(holder: &'a mut Holder, case: &Case) -> Answer<'a, Reading> {
    let call = case.call();
    question(call.questions())?;
    if case.zeros {
        holder.read(call);
    } else {
        holder.read_both(call).unwrap_or_else(|difference| panic!("{difference}"));
    }
    question(case.rooms.questions(holder.reading()))?;
    Ok(holder.reading())
}

fn put(out: &mut Vec<u8>, case: &Case, answer: Answer<Reading>) {
    let Rooms { text, issues } = case.rooms;
    let nothing = Reading::default();
    let (refusal, reading) = numbered(answer, &nothing);
    let [_, counts @ ..] = reading.counts();
    case.put(out, [text, issues], refusal, &counts);
    out.extend_from_slice(&reading.text);
    numbers(out, reading.issues.as_flattened().iter().copied());
}
