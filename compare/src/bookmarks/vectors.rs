//! `compare bookmark-vectors`: eighteen numbers a case, the input, the store before the call, text
//! and issues of an accepted return, and the store after a set, each store without the zeros behind
//! it.

mod cases;

use super::hold::{Holder, Rest, Setting};
use super::lent::Lying;
use crate::bookmark;
use crate::call::{Call, Rooms};
use crate::cells;
use crate::model::Reading;
use crate::runs::Worker;
use crate::subject::{self, Lent};
use crate::vectors::numbers;

/// No case has more numbers of a store, bytes of text, numbers of issues or bytes of input.
pub const STORE: usize = bookmark::STORE + 1;
pub const ROOMS: Rooms = crate::decode::vectors::MOST;
pub const LONGEST: usize = crate::call::LONGEST + 1;

/// What is called, by its number in the file.
#[derive(Clone, Copy, PartialEq, Eq)]
pub enum Kind {
    Set,
    Return,
}

/// The cell table, by its number in the file.
#[derive(Clone, Copy, PartialEq, Eq)]
pub enum Table {
    JisTab,
    Zeros,
    /// A number less than there must be.
    Less,
}

impl Table {
    fn cells(self) -> &'static [u16] {
        match self {
            Table::JisTab => cells::rusts(),
            Table::Zeros => cells::zeros(),
            Table::Less => &cells::zeros()[1..],
        }
    }
}

/// One call.
#[derive(Clone)]
pub struct Case {
    kind: Kind,
    table: Table,
    options: (u32, u32),
    name: u32,
    /// Of a set.
    place: usize,
    input: Vec<u8>,
    /// How much a return is lent beyond its rest.
    beyond: [isize; 2],
    /// The store before the call, if it is not what the case before has left.
    loaded: Option<Vec<u32>>,
}

/// The file with the first `count` cases of the list. The answers are the model's; where the table
/// is the Rust's, the whole was read by the Rust too.
pub fn file(count: usize) -> Vec<u8> {
    let cases = cases::all();
    let count = count.min(cases.len());
    let mut out = (count as u32).to_be_bytes().to_vec();
    let mut holder = Holder::new((subject::model(), Lying::Guarded));
    let mut store = vec![0; bookmark::STORE];
    for case in cases.iter().take(count) {
        if let Some(loaded) = &case.loaded {
            store.clone_from(loaded);
        }
        hold(&mut holder, case, &store);
        put(&mut out, case, &mut store);
    }
    out
}

/// The case held against the model and the Rust, by the model as the subject.
fn hold(holder: &mut Holder, case: &Case, store: &[u32]) {
    let (call, name) = (case.call(), case.name);
    let mut held = || {
        if call.questions() == 0 {
            holder.read(call)?;
        }
        holder.load(store.to_vec());
        match case.kind {
            Kind::Set => holder.set(Setting::new(call, case.place, name)),
            Kind::Return => holder.go_on(Rest { beyond: case.beyond, ..Rest::new(call, name) }),
        }
    };
    held().unwrap_or_else(|difference| panic!("{difference}"));
}

/// Puts a case down, with what the model answers and leaves.
fn put(out: &mut Vec<u8>, case: &Case, store: &mut [u32]) {
    let Case { kind, table, options, name, place, ref input, ref loaded, .. } = *case;
    let before = loaded.as_deref().map_or(&[][..], front);
    let rooms = case.rooms(store);
    let (answer, rest) = ask(case, store, rooms);
    let after = if kind == Kind::Set { front(store) } else { &[] };
    let lengths = [input.len(), rooms.text, rooms.issues, store.len()];
    let [_, counts @ ..] = rest.counts();
    numbers(out, [kind as u32, table as u32, options.0, options.1, name, place as u32]);
    numbers(out, lengths.map(|n| n as u32));
    numbers(out, [loaded.is_some().into(), before.len() as u32, answer]);
    numbers(out, counts.map(|n| n as u32));
    numbers(out, [after.len() as u32]);
    out.extend_from_slice(input);
    numbers(out, before.iter().copied());
    out.extend_from_slice(&rest.text);
    numbers(out, rest.issues.as_flattened().iter().copied());
    numbers(out, after.iter().copied());
}

/// The model's answer to a case, and what it reads on.
fn ask(case: &Case, store: &mut [u32], rooms: Rooms) -> (u32, Reading) {
    let (model, call) = (subject::model(), case.call());
    match case.kind {
        Kind::Set => (model.set(call, case.place, case.name, store, &mut []), Reading::default()),
        Kind::Return => {
            let (text, issues) = (&mut vec![0; rooms.text][..], &mut vec![0; rooms.issues][..]);
            let answer =
                model.go_on(call, case.name, store, Lent { text, issues, counts: &mut [] });
            let rest = bookmark::go_on(call, case.name, store).ok().filter(|_| answer == 0);
            (answer, rest.unwrap_or_default())
        }
    }
}

impl Case {
    fn call(&self) -> Call<'_> {
        let (initial, width) = self.options;
        Call { cells: self.table.cells(), initial, width, input: &self.input }
    }

    /// What a return is lent; a set is lent nothing.
    fn rooms(&self, store: &[u32]) -> Rooms {
        if self.kind == Kind::Set {
            return Rooms::default();
        }
        let rest = bookmark::go_on(self.call(), self.name, store).unwrap_or_default();
        let Rooms { text, issues } = Rooms::exact(&rest);
        Rooms {
            text: text.saturating_add_signed(self.beyond[0]),
            issues: issues.saturating_add_signed(self.beyond[1]),
        }
    }
}

/// A store without the zeros at its end.
fn front(store: &[u32]) -> &[u32] {
    let zeros = store.iter().rev().take_while(|&&number| number == 0).count();
    &store[..store.len() - zeros]
}
