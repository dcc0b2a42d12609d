//! One admissible coding held: it is read as its text, without issue or charge, by the model, by
//! the Rust where the table is the Rust's, and by the subject; it is keyed as the text is.

use super::tally::Tally;
use crate::arrangement::Arrangement;
use crate::call::{Call, Rooms};
use crate::catalogue::{self, Title};
use crate::coding::{Candidate, Coder};
use crate::difference::{Difference, Held, digits, held};
use crate::entries::{Entries, STORE};
use crate::runs::Worker;
use crate::subject::Subject;
use crate::tally::Sum;
use crate::{cells, decode, key};

/// What a thread keeps from call to call.
pub struct Holder<'a> {
    reader: decode::Holder<'a>,
    catalogue: catalogue::Holder<'a>,
    model: Coder,
    pub tally: Tally,
}

impl<'a> Worker for Holder<'a> {
    type Subject = &'a dyn Subject;
    type Tally = Tally;

    fn new(subject: &'a dyn Subject) -> Self {
        let (model, tally) = Default::default();
        Holder { reader: Worker::new(subject), catalogue: Worker::new(subject), model, tally }
    }

    fn tally(self) -> Tally {
        let decode::Tally { rust, answers, keys, private_use, .. } = self.reader.tally;
        Tally { rust, answers, keys, private_use, ..self.tally }
    }
}

impl Holder<'_> {
    /// The candidates of the text's characters in their order; none for a text that is refused.
    pub fn choices(&mut self, text: Call) -> Option<Vec<Vec<Candidate>>> {
        assert_eq!(text.text_questions(), 0, "question 1 to 3");
        let choices = self.model.choices(&text).ok()?;
        self.tally.texts += 1;
        Some(choices)
    }

    /// `arib_decode` in exact rooms and with a byte less, `arib_clean`, `arib_measure`, and
    /// `arib_key` in a buffer for the text, with a byte less and with more.
    pub fn hold(&mut self, text: Call, coding: &Arrangement) -> Held {
        let coded = self.read(text, coding)?;
        self.reader.exact(coded)?;
        let room = text.input.len();
        let less = room.checked_sub(1);
        less.into_iter().chain([room, room + 5]).try_for_each(|room| self.reader.key(coded, room))
    }

    /// The same with `arib_key` in a buffer of every length up to two bytes more than the text.
    pub fn hold_at_every_length(&mut self, text: Call, coding: &Arrangement) -> Held {
        let coded = self.read(text, coding)?;
        self.reader.exact(coded)?;
        (0..=text.input.len() + 2).try_for_each(|room| self.reader.key(coded, room))
    }

    /// A coding of 65,536 bytes or more is refused with 3, whatever it codes.
    pub fn too_long(&mut self, text: Call, coding: &Arrangement) -> Held {
        let coded = Call { input: &coding.bytes, ..text };
        self.reader.refused(coded, Rooms { text: text.input.len(), issues: 0 }, 3)
    }

    /// No coding is shorter than the call's own by more than its gap.
    pub fn against_gap(&mut self, text: Call, coding: &Arrangement) -> Held {
        let Ok(own) = self.model.code(&text) else { return Ok(()) };
        self.tally.gaps += 1;
        self.tally.shorter += u64::from(coding.bytes.len() < own.bytes.len());
        let fault = (own.bytes.len() > coding.bytes.len() + own.gap).then_some("the gap");
        held(fault, &text, |difference| {
            difference
                .line("coding", digits(&coding.bytes))
                .line("the call's", format!("gap {}: {}", own.gap, digits(&own.bytes)))
        })
    }

    /// Two codings of one text, added to an empty catalogue under two numbers, are found together
    /// by the key of the text, or are both refused.
    pub fn together(&mut self, index: u64, text: Call, codings: [&Arrangement; 2]) -> Held {
        self.catalogue.begin(index, vec![0; STORE]);
        for (coding, number) in codings.into_iter().zip([9, 4]) {
            let call = Call { input: &coding.bytes, ..text };
            self.catalogue.add(Title { call, ..Title::new(&coding.bytes, number) })?;
        }
        let key = key::key(str::from_utf8(text.input).expect("a text that is accepted"));
        self.catalogue.find(key.as_bytes(), 3)?;
        let entries = self.catalogue.entries().expect("the form holds");
        let fault = (![0, 2].contains(&entries.len())).then_some("one of two codings added");
        let apart = (entries.distinct() > 1).then_some("two keys of one text");
        let lost = (!entries.is_empty() && !entries.has(key.as_bytes())).then_some("another key");
        self.tally.together += u64::from(!entries.is_empty());
        held(fault.or(apart).or(lost), &text, |difference| {
            let [first, second] = codings.map(|coding| digits(&coding.bytes));
            difference.line("first", first).line("second", second).line("entries", words(entries))
        })
    }

    /// Reads a coding by the model and the Rust, and asks `arib_clean` and `arib_measure`.
    fn read<'c>(
        &mut self,
        text: Call<'c>,
        coding: &'c Arrangement,
    ) -> Result<Call<'c>, Difference> {
        let coded = Call { input: &coding.bytes, ..text };
        if text.cells == cells::rusts() {
            self.reader.read_both(coded)?;
        } else {
            self.reader.read(coded);
            self.reader.ask(coded, decode::AMPLE)?;
        }
        self.tally.codings += 1;
        self.tally.contents.add(&coding.contents);
        self.tally.longest.see(coding.bytes.len());
        let reading = self.reader.reading();
        let same = reading.text == text.input && reading.issues.is_empty() && reading.charge == 0;
        held((!same).then_some("an admissible coding read"), &coded, |difference| {
            difference.line("text", digits(text.input)).line("model", decode::hold::words(reading))
        })?;
        Ok(coded)
    }
}

/// How many entries, and their keys.
fn words(entries: &Entries) -> String {
    let keys = entries.keys().map(|key| format!(" {}", digits(key)));
    format!("{}:{}", entries.len(), keys.collect::<String>())
}
