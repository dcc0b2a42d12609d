//! One call of coding held: the model against the Rust, the coding decoded again, then the
//! subject against the model, so that the subject is held against both.

use oracle::coding::{Refusal, refusal};

use super::lent::Buffers;
use super::tally::Tally;
use crate::call::{Answer, Call, CodingRooms, Rooms, question};
use crate::coding::{Coder, Coding};
use crate::decode::{self, hold};
use crate::difference::{Held, digits, held};
use crate::runs::Worker;
use crate::subject::Subject;

/// What a thread keeps from call to call.
pub struct Holder<'a> {
    subject: &'a dyn Subject,
    /// Decodes again.
    reader: decode::Holder<'a>,
    model: Coder,
    buffers: Buffers,
    answer: Result<Coding, Refusal>,
    pub tally: Tally,
}

impl<'a> Worker for Holder<'a> {
    type Subject = &'a dyn Subject;
    type Tally = Tally;

    fn new(subject: &'a dyn Subject) -> Self {
        let (model, buffers, tally) = Default::default();
        let (reader, answer) = (Worker::new(subject), Ok(Coding::default()));
        Holder { subject, reader, model, buffers, answer, tally }
    }

    fn tally(self) -> Tally {
        self.tally
    }
}

impl<'a> Holder<'a> {
    /// The model's answer to the last text.
    pub fn answer(&self) -> Answer<'_, Coding> {
        self.answer.as_ref().map_err(|&refusal| refusal)
    }

    /// Codes with the model, for a table that the Rust does not have, and decodes again.
    pub fn code(&mut self, call: Call) -> Held {
        self.by_model(call)?;
        self.again(call, |reader, call| {
            reader.read(call);
            reader.ask(call, decode::AMPLE)
        })
    }

    /// Codes with the model and with the Rust, and decodes again with both. The table is the
    /// Rust's.
    pub fn code_both(&mut self, call: Call) -> Held {
        self.by_model(call)?;
        self.tally.rust += 1;
        let rust = oracle::coding::code(call.options(), call.input);
        let model = self.answer.as_ref().map(|coding| &coding.bytes);
        let fault = (rust.as_ref() != model).then_some("model and Rust");
        held(fault, &call, |difference| {
            difference.line("rust", coded(rust.as_deref())).line("model", self.model_words())
        })?;
        self.again(call, decode::Holder::read_both)
    }

    /// `arib_encode` in these rooms, after the model has coded the same text: every byte, number
    /// and count.
    pub fn run(&mut self, call: Call, rooms: CodingRooms) -> Held {
        let given = self.subject.encode(call, self.buffers.lend(rooms));
        let answer = self.answer().and_then(|coding| {
            question(rooms.questions(coding))?;
            Ok(coding)
        });
        let fault = self.buffers.fault(given, answer);
        let number = answer.map_or_else(|refusal| refusal.number, |_| 0);
        self.tally.calls += 1;
        self.tally.answers[number as usize] += 1;
        held(fault, &call, |difference| {
            let difference = difference.line("rooms", rooms);
            let difference = difference.line("store before", self.buffers.before());
            let difference = difference.line("subject", self.buffers.words(given));
            difference.line("model", self.model_words())
        })
    }

    /// `arib_encode` on a call that one of questions 1 to 3 refuses with this number.
    pub fn refused(&mut self, call: Call, rooms: CodingRooms, number: u32) -> Held {
        assert_eq!(call.text_questions(), number, "the model's own answer");
        self.answer = Err(refusal(number, 0));
        self.run(call, rooms)
    }

    /// Codes with the model. What it needs of the store is no more than four numbers a state.
    fn by_model(&mut self, call: Call) -> Held {
        assert_eq!(call.text_questions(), 0, "question 1 to 3");
        self.answer = self.model.code(&call);
        let tally = &mut self.tally;
        tally.codings += 1;
        tally.text.see(call.input.len());
        let Ok(coding) = &self.answer else { return Ok(()) };
        let [exact, older] = [CodingRooms::exact(coding).store, CodingRooms::older(coding).store];
        tally.dropping += u64::from(coding.dropped > 0);
        tally.gaps += u64::from(coding.gap > 0);
        tally.coding.see(coding.bytes.len());
        tally.gap.see(coding.gap);
        tally.store.see(exact);
        tally.numbers += exact as u64;
        tally.older += older as u64;
        let fault = (exact > older).then_some("a need above four numbers a state");
        held(fault, &call, |difference| difference.line("model", self.model_words()))
    }

    /// Reads a coding as `read` does and by the subject's `arib_decode`: it is the text, and
    /// nothing is reported or charged.
    fn again(&mut self, call: Call, read: impl Fn(&mut decode::Holder<'a>, Call) -> Held) -> Held {
        let Ok(coding) = &self.answer else { return Ok(()) };
        let coded = Call { input: &coding.bytes, ..call };
        read(&mut self.reader, coded)?;
        self.reader.run(coded, Rooms::exact(self.reader.reading()))?;
        self.tally.again += 1;
        let reading = self.reader.reading();
        let same = reading.text == call.input && reading.issues.is_empty() && reading.charge == 0;
        held((!same).then_some("the coding decoded again"), &call, |difference| {
            difference.line("coding", digits(&coding.bytes)).line("model", hold::words(reading))
        })
    }

    /// The model's answer in words.
    fn model_words(&self) -> String {
        let bytes = coded(self.answer().map(|coding| &coding.bytes[..]).as_deref());
        self.answer().map_or(bytes.clone(), |coding| {
            let Coding { gap, numbers, states, .. } = coding;
            format!("gap {gap} store {numbers} states {states}: {bytes}")
        })
    }
}

/// A coding's bytes, or its refusal.
fn coded(coding: Result<&[u8], &Refusal>) -> String {
    match coding {
        Ok(bytes) => digits(bytes),
        Err(Refusal { number, place }) => format!("refused {number} at {place}"),
    }
}
