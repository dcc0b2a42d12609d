//! Subjects with a fault in setting.

use compare::bookmark::{
    Bookmark, CHARGE, COUNT, GL, GR, ISSUES, LENGTHS, MARKS, NAMES, NARROW, NUMBERS, OFFSET, PLACE,
    REPEAT, SETS, STARTS, STORE, TEXT, WAITING, named_mut, of,
};
use compare::call::Call;
use compare::subject::model;

use super::{Fault, sets};

/// A set with a fault in the numbers of an accepted one; it is given the bookmark before.
macro_rules! numbers {
    ($fault:expr) => {
        |call, place, name, store, counts| then((call, place, name, store, counts), $fault)
    };
}

pub const FAULTS: [Fault; 35] = [
    // What is stored.
    sets("starts without the plus 1", true, numbers!(starts_as_they_are)),
    sets("ends in the place of lengths", true, numbers!(ends)),
    sets("the waiting repeat not stored", true, numbers!(|_, after| after[REPEAT] = 0)),
    sets("narrow not stored", true, numbers!(|_, after| after[NARROW] = 0)),
    sets("the width option stored as narrow", true, width_stored),
    sets("the first mark's offset lost", true, numbers!(|_, after| after[OFFSET] = 0)),
    sets("the last mark's offset", true, last_offset),
    sets("marks in the wrong order", true, numbers!(marks_reversed)),
    sets("GL and GR in each other's place", true, numbers!(|_, after| after.swap(GL, GR))),
    sets("G3 not stored", true, numbers!(|_, after| after[SETS + 3] = 3)),
    sets("waiting marks counted as text", true, numbers!(marks_counted)),
    sets("issues not stored", true, numbers!(|_, after| after[ISSUES] = 0)),
    sets("the charge not stored", true, numbers!(|_, after| after[CHARGE] = 0)),
    sets("what remains of the budget", true, remaining),
    sets("a redefinition lost", true, first_bodies),
    sets("old marks left", true, numbers!(old_marks)),
    sets("old macros left", true, numbers!(old_macros)),
    sets("the place not stored", true, numbers!(|_, after| after[PLACE] = 0)),
    sets("a number of the next bookmark written", true, one_more),
    sets("the name before", true, |call, place, name, store, counts| {
        let name = if name < NAMES as u32 { name.saturating_sub(1) } else { name };
        model().set(call, place, name, store, counts)
    }),
    // What is refused.
    sets("a bookmark written before 16 is answered", true, written_before),
    sets("a bookmark taken away by 16", true, taken_away),
    sets("a place inside a character accepted", true, inside_character),
    sets("a place inside any step accepted", true, |call, place, name, store, counts| {
        inside((call, place, name, store, counts), |_| true)
    }),
    sets("the end refused", true, end_refused),
    sets("a place behind the end accepted", true, |call, place, name, store, counts| {
        model().set(call, place.min(call.input.len()), name, store, counts)
    }),
    sets("the place in 32 bits", false, |call, place, name, store, counts| {
        model().set(call, place as u32 as usize, name, store, counts)
    }),
    sets("seventeen marks accepted", true, seventeen),
    sets("sixteen marks refused", true, sixteen_refused),
    sets("the input cut at the place", true, |call, place, name, store, counts| {
        let input = call.input.get(..place).unwrap_or(call.input);
        model().set(Call { input, ..call }, place, name, store, counts)
    }),
    sets("16 before 15", true, place_first),
    sets("15 before the first questions", true, name_first),
    sets("the name in four bits", true, |call, place, name, store, counts| {
        model().set(call, place, name % NAMES as u32, store, counts)
    }),
    sets("a longer store accepted", true, |call, place, name, store, counts| {
        let length = store.len().min(STORE);
        model().set(call, place, name, &mut store[..length], counts)
    }),
    sets("other first numbers not asked", true, others_unasked),
];

type Given<'a> = (Call<'a>, usize, u32, &'a mut [u32], &'a mut [usize]);

/// The model's set, and then a fault in the numbers of an accepted one.
fn then(given: Given, fault: impl FnOnce(&Bookmark, &mut Bookmark)) -> u32 {
    let (call, place, name, store, counts) = given;
    let before = store.to_vec();
    let answer = model().set(call, place, name, store, counts);
    if answer == 0 {
        fault(compare::bookmark::named(&before, name), named_mut(store, name));
    }
    answer
}

fn starts_as_they_are(_: &Bookmark, after: &mut Bookmark) {
    after[STARTS..LENGTHS].iter_mut().for_each(|start| *start = start.saturating_sub(1));
}

fn ends(_: &Bookmark, after: &mut Bookmark) {
    for code in 0..LENGTHS - STARTS {
        after[LENGTHS + code] += after[STARTS + code].saturating_sub(1);
    }
}

fn marks_reversed(_: &Bookmark, after: &mut Bookmark) {
    let count = after[COUNT] as usize;
    after[MARKS..][..count].reverse();
}

fn marks_counted(_: &Bookmark, after: &mut Bookmark) {
    let marks = after[MARKS..STARTS].iter().filter_map(|&mark| char::from_u32(mark));
    after[TEXT] +=
        marks.filter(|&mark| mark != '\0').map(|mark| mark.len_utf8() as u32).sum::<u32>();
}

fn old_marks(before: &Bookmark, after: &mut Bookmark) {
    let from = MARKS + after[COUNT] as usize;
    after[from..STARTS].copy_from_slice(&before[from..STARTS]);
}

fn old_macros(before: &Bookmark, after: &mut Bookmark) {
    for at in STARTS..LENGTHS {
        if after[at] == 0 {
            let length = at + LENGTHS - STARTS;
            (after[at], after[length]) = (before[at], before[length]);
        }
    }
}

fn width_stored(
    call: Call,
    place: usize,
    name: u32,
    store: &mut [u32],
    counts: &mut [usize],
) -> u32 {
    then((call, place, name, store, counts), |_, after| after[NARROW] |= call.width)
}

fn last_offset(
    call: Call,
    place: usize,
    name: u32,
    store: &mut [u32],
    counts: &mut [usize],
) -> u32 {
    then((call, place, name, store, counts), |_, after| {
        let marks = call.between(place).map_or(vec![], |between| between.marks);
        after[OFFSET] = marks.last().map_or(0, |&(_, offset)| offset);
    })
}

fn remaining(call: Call, place: usize, name: u32, store: &mut [u32], counts: &mut [usize]) -> u32 {
    then((call, place, name, store, counts), |_, after| {
        after[CHARGE] = 64 * call.input.len() as u32 + 4_096 - after[CHARGE];
    })
}

fn first_bodies(
    call: Call,
    place: usize,
    name: u32,
    store: &mut [u32],
    counts: &mut [usize],
) -> u32 {
    then((call, place, name, store, counts), |_, after| {
        let before = call.places().into_iter().rev().filter(|&at| at < place);
        for between in before.filter_map(|at| call.between(at)) {
            for (code, (start, end)) in (0..).zip(between.bodies).filter_map(defined) {
                (after[STARTS + code], after[LENGTHS + code]) = (start + 1, end - start);
            }
        }
    })
}

fn defined((code, body): (usize, Option<(u32, u32)>)) -> Option<(usize, (u32, u32))> {
    body.map(|body| (code, body))
}

fn one_more(call: Call, place: usize, name: u32, store: &mut [u32], counts: &mut [usize]) -> u32 {
    let answer = model().set(call, place, name, store, counts);
    let next = NUMBERS * (name as usize + 1) + NUMBERS - 1;
    if answer == 0 && next < store.len() {
        store[next] ^= 1;
    }
    answer
}

fn written_before(
    call: Call,
    place: usize,
    name: u32,
    store: &mut [u32],
    counts: &mut [usize],
) -> u32 {
    let answer = model().set(call, place, name, store, counts);
    if answer == 16 {
        let after = named_mut(store, name);
        (after[0], after[PLACE]) = (1, place as u32);
    }
    answer
}

fn taken_away(call: Call, place: usize, name: u32, store: &mut [u32], counts: &mut [usize]) -> u32 {
    let answer = model().set(call, place, name, store, counts);
    if answer == 16 {
        named_mut(store, name).fill(0);
    }
    answer
}

/// Accepts a place where no step begins, in the state before the step that it is in, which is
/// given.
fn inside(given: Given, accepted: impl FnOnce(&[u8]) -> bool) -> u32 {
    let (call, place, name, store, counts) = given;
    let answer = model().set(call, place, name, store, counts);
    if answer != 16 || place > call.input.len() || call.between(place).is_some() {
        return answer;
    }
    let places = call.places();
    let next = places.partition_point(|&at| at < place);
    let (start, end) = (places[next - 1], places[next]);
    let between = call.between(start).filter(|between| between.marks.len() <= WAITING);
    match between {
        Some(between) if accepted(&call.input[start..end]) => {
            *named_mut(store, name) = of(&between);
            named_mut(store, name)[PLACE] = place as u32;
            0
        }
        _ => 16,
    }
}

fn inside_character(
    call: Call,
    place: usize,
    name: u32,
    store: &mut [u32],
    counts: &mut [usize],
) -> u32 {
    inside((call, place, name, store, counts), |step| {
        matches!(step, [0x21..=0x7E | 0xA1..=0xFE, _])
    })
}

/// Refuses with this number, and leaves the store.
fn refused(counts: &mut [usize], answer: u32) -> u32 {
    counts.iter_mut().take(1).for_each(|count| *count = 0);
    answer
}

fn end_refused(
    call: Call,
    place: usize,
    name: u32,
    store: &mut [u32],
    counts: &mut [usize],
) -> u32 {
    let mut copy = store.to_vec();
    if place == call.input.len() && model().set(call, place, name, &mut copy, &mut []) == 0 {
        return refused(counts, 16);
    }
    model().set(call, place, name, store, counts)
}

fn seventeen(call: Call, place: usize, name: u32, store: &mut [u32], counts: &mut [usize]) -> u32 {
    let answer = model().set(call, place, name, store, counts);
    match call.between(place) {
        Some(mut between) if answer == 16 && between.marks.len() == WAITING + 1 => {
            between.marks.truncate(WAITING);
            *named_mut(store, name) = of(&between);
            0
        }
        _ => answer,
    }
}

fn sixteen_refused(
    call: Call,
    place: usize,
    name: u32,
    store: &mut [u32],
    counts: &mut [usize],
) -> u32 {
    let mut copy = store.to_vec();
    let answer = model().set(call, place, name, &mut copy, &mut []);
    if answer == 0 && copy[NUMBERS * name as usize + COUNT] == WAITING as u32 {
        return refused(counts, 16);
    }
    model().set(call, place, name, store, counts)
}

fn place_first(
    call: Call,
    place: usize,
    name: u32,
    store: &mut [u32],
    counts: &mut [usize],
) -> u32 {
    let answer = model().set(call, place, name, store, counts);
    if answer == 15 && call.between(place).is_none() { 16 } else { answer }
}

fn name_first(call: Call, place: usize, name: u32, store: &mut [u32], counts: &mut [usize]) -> u32 {
    if name as usize >= NAMES {
        return refused(counts, 15);
    }
    model().set(call, place, name, store, counts)
}

fn others_unasked(
    call: Call,
    place: usize,
    name: u32,
    store: &mut [u32],
    counts: &mut [usize],
) -> u32 {
    if store.len() != STORE {
        return model().set(call, place, name, store, counts);
    }
    let mut copy = store.to_vec();
    for (other, numbers) in copy.chunks_mut(NUMBERS).enumerate() {
        numbers[0] = if other == name as usize { numbers[0] } else { numbers[0].min(1) };
    }
    let answer = model().set(call, place, name, &mut copy, counts);
    if answer == 0 {
        *named_mut(store, name) = *compare::bookmark::named(&copy, name);
    }
    answer
}
