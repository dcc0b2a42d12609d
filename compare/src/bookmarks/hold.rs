//! One call of bookmarks held against the model: its number, every number of the store, every byte
//! of text and number of issues, every count, and what stands beside them.

use super::lent::{Left, Lying, Slices};
use super::tally::Tally;
use crate::bookmark::{
    self, Bookmark, CHARGE, COUNT, ISSUES, LENGTHS, NAMES, REPEAT, STARTS, STORE, TEXT, named,
    named_mut,
};
use crate::call::{Call, Rooms};
use crate::cells;
use crate::decode::{self, DECODED, hold};
use crate::difference::{Difference, Held, held};
use crate::model::Reading;
use crate::runs::Worker;
use crate::subject::{Subject, model};

/// A place to set.
#[derive(Clone, Copy)]
pub struct Setting<'a> {
    pub call: Call<'a>,
    pub place: usize,
    pub name: u32,
    /// How many counts are lent.
    pub counts: usize,
}

impl<'a> Setting<'a> {
    pub fn new(call: Call<'a>, place: usize, name: u32) -> Setting<'a> {
        Setting { call, place, name, counts: 1 }
    }
}

/// A return.
#[derive(Clone, Copy)]
pub struct Rest<'a> {
    pub call: Call<'a>,
    pub name: u32,
    /// How many bytes of text and numbers of issues are lent beyond those of the rest, which has
    /// none where there is no rest; below 0 they are too few.
    pub beyond: [isize; 2],
    /// How many counts are lent.
    pub counts: usize,
}

impl<'a> Rest<'a> {
    /// In rooms that just suffice.
    pub fn new(call: Call<'a>, name: u32) -> Rest<'a> {
        Rest { call, name, beyond: [0, 0], counts: DECODED }
    }
}

/// What a thread keeps from call to call.
pub struct Holder<'a> {
    subject: &'a dyn Subject,
    /// Reads the whole by the model and by the Rust.
    reader: decode::Holder<'static>,
    slices: Slices,
    /// The store before the next call, and which of its bookmarks were set over the last reading.
    store: Vec<u32>,
    own: [bool; NAMES],
    /// The index of the sequence within its part, and how many calls it has made.
    sequence: u64,
    calls: u64,
    pub tally: Tally,
}

impl<'a> Worker for Holder<'a> {
    type Subject = (&'a dyn Subject, Lying);
    type Tally = Tally;

    fn new((subject, lying): (&'a dyn Subject, Lying)) -> Self {
        let (store, own, sequence, calls, tally) = Default::default();
        let (reader, slices) = (Worker::new(model()), Slices::new(lying));
        Holder { subject, reader, slices, store, own, sequence, calls, tally }
    }

    fn tally(self) -> Tally {
        self.tally
    }
}

impl Holder<'_> {
    /// A sequence of calls begins, of this index within its part, on a store without bookmarks.
    pub fn begin(&mut self, index: u64) {
        (self.sequence, self.calls) = (index, 0);
        self.load(vec![0; STORE]);
    }

    /// The next call is made on this store.
    pub fn load(&mut self, store: Vec<u32>) {
        self.store = store;
        self.own = [false; NAMES];
    }

    /// The store before the next call.
    pub fn store(&self) -> &[u32] {
        &self.store
    }

    /// The reading of the whole, over which bookmarks are then set: by the model, and where the
    /// table is the Rust's by the Rust too.
    pub fn read(&mut self, call: Call) -> Held {
        self.own = [false; NAMES];
        self.tally.readings += 1;
        if call.cells != cells::rusts() {
            self.reader.read(call);
            return Ok(());
        }
        self.tally.rust += 1;
        self.reader.read_both(call)
    }

    /// `arib_bookmark_set` over the last reading; whether it is accepted.
    pub fn set(&mut self, setting: Setting) -> Result<bool, Difference> {
        let Setting { call, place, name, counts } = setting;
        let answer = bookmark::set(call, place, name, &self.store);
        let number = answer.err().unwrap_or(0);
        let mut after = self.store.clone();
        if let Ok(numbers) = answer {
            *named_mut(&mut after, name) = numbers;
            self.own[name as usize] = true;
            self.see_set(&numbers);
        }
        self.calls += 1;
        self.tally.sets[number as usize] += 1;
        let given = self.slices.set(self.subject, setting, &self.store);
        let left = Left { number, counts: &[0], store: &after };
        let fault = self.slices.fault(given, call.input, left);
        held(fault.map(|what| format!("set: {what}")), &call, |difference| {
            let difference = difference.line("place", place).line("name", name);
            self.with_store(difference.line("counts lent", counts), name)
        })?;
        self.store = after;
        Ok(number == 0)
    }

    /// `arib_bookmark_return`; whether it is accepted. Where the bookmark was set over the last
    /// reading, which is of this call, what was read before it and the rest are the whole.
    pub fn go_on(&mut self, rest: Rest) -> Result<bool, Difference> {
        let Rest { call, name, beyond, counts } = rest;
        let own = self.own.get(name as usize).is_some_and(|&own| own);
        let (rooms, answer) = self.rest(call, name, beyond);
        let number = answer.as_ref().err().copied().unwrap_or(0);
        self.see_return(own, &answer);
        let given = self.slices.go_on(self.subject, rest, rooms, &self.store);
        let reading = answer.unwrap_or_default();
        let left = Left { number, counts: &reading.counts(), store: &self.store };
        let fault = self.slices.fault(given, call.input, left);
        let fault = fault.or_else(|| self.slices.rest_fault(&reading));
        let fault = fault.or_else(|| {
            let whole = own && number == 0;
            whole.then(|| self.whole_fault(name, &reading).map(String::from)).flatten()
        });
        held(fault.map(|what| format!("return: {what}")), &call, |difference| {
            let difference = difference.line("name", name).line("rooms", rooms);
            let difference = difference.line("counts lent", counts);
            let difference = difference.line("subject", self.slices.words(given));
            self.with_store(difference.line("model", hold::words(&reading)), name)
        })?;
        Ok(number == 0)
    }

    /// The rooms of a return, and what it answers.
    fn rest(&self, call: Call, name: u32, beyond: [isize; 2]) -> (Rooms, Result<Reading, u32>) {
        let rest = bookmark::go_on(call, name, &self.store);
        let Rooms { text, issues } = rest.as_ref().map(Rooms::exact).unwrap_or_default();
        let [text, issues] = [(text, beyond[0]), (issues, beyond[1])]
            .map(|(room, beyond)| room.saturating_add_signed(beyond));
        let rooms = Rooms { text, issues };
        let asked = rest.as_ref().map_or(0, |rest| rooms.questions(rest));
        (rooms, if asked == 0 { rest } else { Err(asked) })
    }

    /// In what a bookmark's part and its rest are not the whole, if in anything.
    fn whole_fault(&self, name: u32, rest: &Reading) -> Option<&'static str> {
        let (whole, numbers) = (self.reader.reading(), named(&self.store, name));
        let (text, issues) = (numbers[TEXT] as usize, numbers[ISSUES] as usize);
        if whole.text.get(text..) != Some(&rest.text) {
            return Some("part and rest are not the whole text");
        }
        if whole.issues.get(issues..) != Some(&rest.issues) {
            return Some("part and rest are not all issues");
        }
        (whole.charge != rest.charge).then_some("another charge than the whole's")
    }

    /// The place in the run, and the bookmark before the call.
    fn with_store(&self, difference: Difference, name: u32) -> Difference {
        let place = format!("call {} of sequence {}", self.calls, self.sequence);
        let before = self.store.chunks(bookmark::NUMBERS).nth(name as usize).unwrap_or_default();
        let shown = before.iter().enumerate().filter(|&(_, &number)| number != 0);
        let shown: String = shown.map(|(at, number)| format!(" {at}:{number}")).collect();
        let firsts: Vec<u32> =
            self.store.chunks(bookmark::NUMBERS).map(|bookmark| bookmark[0]).collect();
        let words = format!("{} numbers, first ones {firsts:?}; this one{shown}", self.store.len());
        difference.line("call", place).line("store before", words)
    }

    fn see_set(&mut self, numbers: &Bookmark) {
        let Tally { marks, repeats, macros, charged, waiting, .. } = &mut self.tally;
        *marks += u64::from(numbers[COUNT] > 0);
        *repeats += u64::from(numbers[REPEAT] > 0);
        *macros += u64::from(numbers[STARTS..LENGTHS].iter().any(|&start| start > 0));
        *charged += u64::from(numbers[CHARGE] > 0);
        waiting.see(numbers[COUNT] as usize);
    }

    fn see_return(&mut self, own: bool, answer: &Result<Reading, u32>) {
        self.calls += 1;
        let number = answer.as_ref().err().copied().unwrap_or(0);
        let accepted = u64::from(number == 0);
        self.tally.returns[number as usize] += 1;
        self.tally.wholes += if own { accepted } else { 0 };
        self.tally.other += u64::from(!own);
        self.tally.other_accepted += if own { 0 } else { accepted };
        if let Ok(rest) = answer {
            self.tally.positions.see(rest.issues.iter().map(|&[.., position]| position));
            self.tally.private_use.see(rest.private_use());
            self.tally.longest.see(rest.text.len());
        }
    }
}
