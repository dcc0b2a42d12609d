//! One call held: the model against the Rust, then the subject against the model, so that the
//! subject is held against both.

mod clean;
mod counts;
mod key;
mod measure;
mod rust;

use oracle::reading;

use super::lent::{AMPLE, Buffers, DECODED, issues};
use super::tally::Tally;
use crate::call::{Call, Rooms, question};
use crate::difference::{Held, digits, held};
use crate::model::Reading;
use crate::runs::Worker;
use crate::subject::Subject;

pub use counts::COUNTS;

/// What a thread keeps from call to call.
pub struct Holder<'a> {
    subject: &'a dyn Subject,
    buffers: Buffers,
    reading: Reading,
    /// Whether the reading's positions and private-use characters are among those compared.
    compared: bool,
    pub tally: Tally,
}

impl<'a> Worker for Holder<'a> {
    type Subject = &'a dyn Subject;
    type Tally = Tally;

    fn new(subject: &'a dyn Subject) -> Self {
        let (buffers, reading, compared, tally) = Default::default();
        Holder { subject, buffers, reading, compared, tally }
    }

    fn tally(self) -> Tally {
        self.tally
    }
}

impl Holder<'_> {
    /// The model's reading of the last call.
    pub fn reading(&self) -> &Reading {
        &self.reading
    }

    /// Reads with the model, for a table that the Rust does not have.
    pub fn read(&mut self, call: Call) {
        call.read(&mut self.reading);
        self.compared = false;
        self.tally.readings += 1;
        self.tally.longest.see(self.reading.text.len());
        self.tally.charge.see(self.reading.charge);
        for [_, kind, ..] in &self.reading.issues {
            self.tally.kinds[*kind as usize] += 1;
        }
    }

    /// Reads with the model and with the Rust: text, its private-use characters, issues with their
    /// fields, and the bytes of unknown escapes as the subject hands them back. Then `arib_clean`,
    /// by the Rust's issues, and `arib_measure`, by the Rust's text and issues and the model's
    /// charge. The table is the Rust's. The issues' positions, which the Rust has not, are the
    /// model's: `run` holds the subject to them.
    pub fn read_both(&mut self, call: Call) -> Held {
        self.read(call);
        self.tally.rust += 1;
        let rust = reading::read(call.options(), call.input);
        let fault = rust::fault(&self.reading, &rust, call.input)
            .map(String::from)
            .or_else(|| self.part_fault(&rust, call.input));
        held(fault, &call, |difference| {
            difference.line("rust", rust::words(&rust)).line("model", words(&self.reading))
        })?;
        self.clean_answer(call, AMPLE, Ok(rust.issues.is_empty()))?;
        let sizes = [rust.text.len(), rust.issues.len(), self.reading.charge];
        self.measure_answer(call, AMPLE, Ok(sizes))
    }

    /// `arib_decode` with these rooms, after a reading.
    pub fn run(&mut self, call: Call, rooms: Rooms) -> Held {
        self.decode(call, rooms, rooms.questions(&self.reading))
    }

    /// `arib_decode`, `arib_key`, `arib_clean` and `arib_measure` on a call that one of questions 1
    /// to 3 refuses with this number.
    pub fn refused(&mut self, call: Call, rooms: Rooms, number: u32) -> Held {
        assert_eq!(call.questions(), number, "the model's own answer");
        self.decode(call, rooms, number)?;
        self.key_answer(call, rooms.text, number)?;
        COUNTS.into_iter().try_for_each(|room| {
            self.decode_with(call, rooms, room, number)?;
            self.ask_refused(call, room, number)
        })
    }

    /// `arib_unknown_escape`: the part of the input, or the empty part at its beginning.
    pub fn part(&mut self, input: &[u8], start: usize, length: usize, part: [usize; 2]) -> Held {
        self.tally.parts += 1;
        let found = self.subject.unknown_escape(input, start, length);
        let fault = (found != (part[1], part)).then(|| {
            format!("part {start} {length}: (returned, part) {found:?}, expected {part:?}")
        });
        let call = Call { cells: &[], initial: 0, width: 0, input };
        held(fault, &call, |difference| difference)
    }

    /// `arib_decode` refuses with this number, or gives the reading where it is 0: every byte and
    /// count.
    fn decode(&mut self, call: Call, rooms: Rooms, number: u32) -> Held {
        self.decode_with(call, rooms, DECODED, number)
    }

    /// The same with so many counts.
    fn decode_with(&mut self, call: Call, rooms: Rooms, counts: usize, number: u32) -> Held {
        self.tally.calls += 1;
        self.tally.answers[number as usize] += 1;
        if number == 0 && !std::mem::replace(&mut self.compared, true) {
            self.tally.positions.see(self.reading.issues.iter().map(|[.., position]| *position));
            self.tally.private_use.see(self.reading.private_use());
        }
        let given = self.subject.decode(call, self.buffers.lend(rooms, counts));
        let answer = question(number).map(|()| &self.reading);
        held(self.buffers.fault(given, answer), &call, |difference| {
            let difference = difference.line("rooms", rooms).line("counts lent", counts);
            let difference = difference.line("subject", self.buffers.words(given));
            if call.questions() != 0 {
                return difference;
            }
            difference.line("model", words(&self.reading))
        })
    }

    /// The Rust's bytes of each unknown escape, through `arib_unknown_escape`.
    fn part_fault(&mut self, rust: &reading::Reading, input: &[u8]) -> Option<String> {
        let escapes = rust.issues.iter().zip(&self.reading.issues).filter(|(i, _)| i.kind == 1);
        for (issue, &[_, _, start, length, _]) in escapes {
            let (start, length) = (start as usize, length as usize);
            let (returned, part) = self.subject.unknown_escape(input, start, length);
            self.tally.parts += 1;
            let bytes = part[0].checked_add(part[1]).and_then(|end| input.get(part[0]..end));
            if (returned, part) != (length, [start, length]) || bytes != Some(&issue.escape) {
                return Some(format!("part {start} {length}: {returned}, {part:?}"));
            }
        }
        None
    }
}

/// The model's reading in words.
pub fn words(reading: &Reading) -> String {
    format!(
        "text {} issues {} charged {} private-use {}: {}{}",
        reading.text.len(),
        reading.issues.len(),
        reading.charge,
        reading.private_use(),
        digits(&reading.text),
        issues(reading.issues.as_flattened())
    )
}
