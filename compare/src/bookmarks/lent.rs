//! What a call is lent: the input, the store, and of a return text and issues, and the counts.

use super::hold::{Rest, Setting};
use crate::call::{Call, Rooms};
use crate::decode::issues;
use crate::difference::digits;
use crate::lent::{Buffer, Element};
use crate::model::Reading;
use crate::subject::{Lent, Subject};

/// How the slices of a call lie in memory.
#[derive(Clone, Copy, PartialEq, Eq)]
pub enum Lying {
    /// Between elements of a pattern, which are looked at; the cell table lies where it is.
    Guarded,
    /// Each alone in an allocation of its size, for memcheck.
    Alone,
}

/// The slices, filled or copied before a call and looked at after it.
pub struct Slices {
    lying: Lying,
    cells: Buffer<u16>,
    input: Buffer<u8>,
    store: Buffer<u32>,
    text: Buffer<u8>,
    issues: Buffer<u32>,
    counts: Buffer<usize>,
}

/// What a call must leave: its number, its counts, and the store.
pub struct Left<'a> {
    pub number: u32,
    pub counts: &'a [usize],
    pub store: &'a [u32],
}

impl Slices {
    pub fn new(lying: Lying) -> Slices {
        Slices {
            lying,
            cells: lain(lying),
            input: lain(lying),
            store: lain(lying),
            text: lain(lying),
            issues: lain(lying),
            counts: lain(lying),
        }
    }

    /// `arib_bookmark_set`.
    pub fn set(&mut self, subject: &dyn Subject, setting: Setting, store: &[u32]) -> u32 {
        let Setting { call, place, name, counts } = setting;
        let call = given(self.lying, call, &mut self.cells, &mut self.input);
        subject.set(call, place, name, self.store.lend_copy(store), self.counts.lend(counts))
    }

    /// `arib_bookmark_return`.
    pub fn go_on(&mut self, subject: &dyn Subject, rest: Rest, rooms: Rooms, store: &[u32]) -> u32 {
        let Rest { call, name, counts, .. } = rest;
        let call = given(self.lying, call, &mut self.cells, &mut self.input);
        let lent = Lent {
            text: self.text.lend(rooms.text),
            issues: self.issues.lend(rooms.issues),
            counts: self.counts.lend(counts),
        };
        subject.go_on(call, name, self.store.lend_copy(store), lent)
    }

    /// The first thing that a call which answered with this number has not left so, if any. Counts
    /// that do not fit are not written, and those behind them stay.
    pub fn fault(&self, given: u32, input: &[u8], left: Left) -> Option<String> {
        let Left { number, counts, store } = left;
        if given != number {
            return Some(format!("refusal {given}, expected {number}"));
        }
        let mut all = vec![usize::PATTERN; self.counts.lent().len()];
        all.iter_mut().zip(counts).for_each(|(count, &n)| *count = n);
        self.counts
            .fault("count", &all)
            .or_else(|| self.store.fault("number of the store", store))
            .or_else(|| self.input.fault("input byte", input))
    }

    /// The same of the text and the issues of a return.
    pub fn rest_fault(&self, rest: &Reading) -> Option<String> {
        let issues = rest.issues.as_flattened();
        self.text
            .fault("text byte", &rest.text)
            .or_else(|| self.issues.fault("issue number", issues))
    }

    /// What a return has left, in words.
    pub fn words(&self, given: u32) -> String {
        let (text, issues) = (digits(self.text.lent()), issues(self.issues.lent()));
        format!("refusal {given} counts {:?}: {text}{issues}", self.counts.lent())
    }
}

/// The call with its slices lying so.
fn given<'a>(
    lying: Lying,
    call: Call<'a>,
    cells: &'a mut Buffer<u16>,
    input: &'a mut Buffer<u8>,
) -> Call<'a> {
    let cells = match lying {
        Lying::Guarded => call.cells,
        Lying::Alone => cells.lend_copy(call.cells),
    };
    Call { cells, input: input.lend_copy(call.input), ..call }
}

fn lain<T: Element>(lying: Lying) -> Buffer<T> {
    match lying {
        Lying::Guarded => Buffer::default(),
        Lying::Alone => Buffer::alone(),
    }
}
