//! The model in the place of the library, so that it is held against the Rust itself.

use std::cell::RefCell;

use oracle::coding::Refusal;

use super::{CatalogueLent, CodingLent, Lent, Subject};
use crate::call::{Call, CodingRooms, Rooms, numbered, question};
use crate::coding::{Coder, Coding};
use crate::entries::{self, Entries, Form};
use crate::model::Reading;
use crate::{bookmark, key};

pub struct StandIn;

impl Subject for StandIn {
    fn decode(&self, call: Call, lent: Lent) -> u32 {
        let rooms = rooms(&lent);
        let (number, reading) = read(call, |reading| rooms.questions(reading));
        give(lent, &reading);
        number
    }

    fn unknown_escape(&self, input: &[u8], start: usize, length: usize) -> (usize, [usize; 2]) {
        let part = start.checked_add(length).and_then(|end| input.get(start..end));
        part.map_or((0, [0, 0]), |part| (part.len(), [start, part.len()]))
    }

    fn encode(&self, call: Call, lent: CodingLent) -> u32 {
        let rooms = CodingRooms { store: lent.store.len(), coding: lent.coding.len() };
        let (answer, nothing) = (code(call, rooms), Coding::default());
        let (refusal, coding) = numbered(answer.as_ref().map_err(|&refusal| refusal), &nothing);
        write(lent.store, &[]);
        write(lent.coding, &coding.bytes);
        *lent.counts = [refusal.place as usize, coding.bytes.len(), coding.gap];
        refusal.number
    }

    fn key(&self, call: Call, buffer: &mut [u8], counts: &mut [usize]) -> u32 {
        let (number, reading) = read(call, |reading| key::questions(buffer.len(), reading));
        let (key, charge) = key::of(number, &reading);
        write(buffer, key.as_bytes());
        leave(counts, [0, key.len(), charge]);
        number
    }

    fn clean(&self, call: Call, counts: &mut [usize]) -> u32 {
        let (number, reading) = read(call, |_| 0);
        let clean = number == 0 && reading.issues.is_empty();
        leave(counts, [0, clean.into()]);
        number
    }

    fn measure(&self, call: Call, counts: &mut [usize]) -> u32 {
        let (number, reading) = read(call, |_| 0);
        leave(counts, reading.measured());
        number
    }

    fn add(&self, call: Call, number: u32, lent: CatalogueLent) -> u32 {
        let (asked, reading) = read(call, |reading| key::questions(lent.key.len(), reading));
        let (key, charge) = key::of(asked, &reading);
        let keyed = if asked == 0 { Ok(key.as_bytes()) } else { Err(asked) };
        let after = entries::add(Entries::of(lent.store), keyed, number);
        let (key, charge) = if after.is_ok() { (&key[..], charge) } else { ("", 0) };
        write(lent.key, key.as_bytes());
        leave(lent.counts, [0, key.len(), charge]);
        keep(lent.store, after)
    }

    fn remove(&self, store: &mut [u8], number: u32) -> u32 {
        let after = entries::remove(Entries::of(store), number);
        keep(store, after)
    }

    fn find(&self, store: &[u8], key: &[u8], counts: &mut [usize]) -> u32 {
        let found = entries::find(Entries::of(store).as_ref().map_err(|&number| number), key);
        let [entries, smallest] = found.unwrap_or_default();
        leave(counts, [0, entries, smallest]);
        found.err().unwrap_or(0)
    }

    fn set(
        &self,
        call: Call,
        place: usize,
        name: u32,
        store: &mut [u32],
        counts: &mut [usize],
    ) -> u32 {
        let set = bookmark::set(call, place, name, store);
        if let Ok(numbers) = set {
            *bookmark::named_mut(store, name) = numbers;
        }
        leave(counts, [0]);
        set.err().unwrap_or(0)
    }

    fn go_on(&self, call: Call, name: u32, store: &[u32], lent: Lent) -> u32 {
        let rest = bookmark::go_on(call, name, store);
        let rest = rest.and_then(|rest| match rooms(&lent).questions(&rest) {
            0 => Ok(rest),
            number => Err(number),
        });
        let number = rest.as_ref().err().copied().unwrap_or(0);
        give(lent, &rest.unwrap_or_default());
        number
    }
}

/// The lengths of what is lent.
fn rooms(lent: &Lent) -> Rooms {
    Rooms { text: lent.text.len(), issues: lent.issues.len() }
}

/// A reading in what is lent.
fn give(lent: Lent, reading: &Reading) {
    write(lent.text, &reading.text);
    write(lent.issues, reading.issues.as_flattened());
    leave(lent.counts, reading.counts());
}

/// The store holds these entries from now on, or stays as it is: the refusal's number, or 0.
fn keep(store: &mut [u8], after: Form) -> u32 {
    match after {
        Ok(entries) => {
            store.copy_from_slice(&entries.store());
            0
        }
        Err(number) => number,
    }
}

/// The result, and zeros behind it.
fn write<T: Copy + Default>(buffer: &mut [T], result: &[T]) {
    let (written, unused) = buffer.split_at_mut(result.len());
    written.copy_from_slice(result);
    unused.fill(T::default());
}

/// As many counts as there is room for; what is behind them stays.
fn leave<const N: usize>(room: &mut [usize], counts: [usize; N]) {
    room.iter_mut().zip(counts).for_each(|(count, n)| *count = n);
}

/// Questions 1 to 3, then the others, which a reading answers: the refusal's number and an empty
/// reading, or 0 and the reading.
fn read(call: Call, others: impl Fn(&Reading) -> u32) -> (u32, Reading) {
    let mut reading = Reading::default();
    let mut number = call.questions();
    if number == 0 {
        call.read(&mut reading);
        number = others(&reading);
    }
    (number, if number == 0 { reading } else { Reading::default() })
}

thread_local! {
    /// The model of coding, which keeps its memory from call to call.
    static CODER: RefCell<Coder> = RefCell::default();
}

/// All questions of coding in their order.
fn code(call: Call, rooms: CodingRooms) -> Result<Coding, Refusal> {
    question(call.text_questions())?;
    let coding = CODER.with_borrow_mut(|coder| coder.code(&call))?;
    question(rooms.questions(&coding))?;
    Ok(coding)
}
