//! `compare catalogue-vectors`: fifteen numbers a case, the title or the key that is sought, the
//! store before the call, the key, and the store after it, each without the zeros behind it.

mod cases;

use super::hold::front;
use crate::decode::Holder;
use crate::runs::Worker;
use crate::subject::{self, CatalogueLent};
use crate::vectors::{self, numbers};

/// No case has more bytes of a store, of a key's buffer, or of a title or key.
pub const STORE: usize = crate::entries::STORE + 1;
pub const KEY: usize = 4_096;
pub const LONGEST: usize = 1_024;

/// What is called, by its number in the file.
#[derive(Clone, Copy, PartialEq, Eq)]
pub enum Kind {
    Add,
    Remove,
    Find,
}

/// One call.
pub struct Case {
    kind: Kind,
    /// That of the entry.
    number: u32,
    /// The title with its table, its options and the room for its key; or the key that is sought.
    given: vectors::Case<usize>,
    /// The store before the call, if it is not what the case before has left.
    loaded: Option<Vec<u8>>,
}

/// The file with the first `count` cases of the list. The answers are the model's; where the table
/// is the Rust's, the titles were read by the Rust too.
pub fn file(count: usize) -> Vec<u8> {
    let cases = cases::all();
    let count = count.min(cases.len());
    let mut out = (count as u32).to_be_bytes().to_vec();
    let (mut holder, mut store) = (Holder::new(subject::model()), Vec::new());
    for case in cases.iter().take(count) {
        let call = case.given.call();
        if case.kind == Kind::Add && !case.given.zeros && call.questions() == 0 {
            holder.read_both(call).unwrap_or_else(|difference| panic!("{difference}"));
        }
        put(&mut out, case, &mut store);
    }
    out
}

/// Puts a case down, with what the model answers and leaves.
fn put(out: &mut Vec<u8>, case: &Case, store: &mut Vec<u8>) {
    let Case { kind, number, ref given, ref loaded } = *case;
    if let Some(loaded) = loaded {
        store.clone_from(loaded);
    }
    let before = loaded.as_deref().map_or(&[][..], front);
    let (mut key, mut counts) = (vec![0; given.rooms], [0; 3]);
    let answer = ask(case, store, &mut key, &mut counts);
    let [_, first, second] = counts.map(|n| n as u32);
    let key = if kind == Kind::Add { &key[..first as usize] } else { &[] };
    let after = front(store);
    numbers(out, [kind as u32, given.zeros.into(), given.initial, given.width, number]);
    numbers(out, [given.input.len(), given.rooms, store.len()].map(|n| n as u32));
    numbers(out, [loaded.is_some().into(), before.len() as u32]);
    numbers(out, [answer, first, second, after.len() as u32, 0]);
    [&given.input, before, key, after].into_iter().for_each(|bytes| out.extend_from_slice(bytes));
}

/// The model's answer to a case.
fn ask(case: &Case, store: &mut [u8], key: &mut [u8], counts: &mut [usize]) -> u32 {
    let (model, call) = (subject::model(), case.given.call());
    match case.kind {
        Kind::Add => model.add(call, case.number, CatalogueLent { store, key, counts }),
        Kind::Remove => model.remove(store, case.number),
        Kind::Find => model.find(store, call.input, counts),
    }
}
