//! Subjects with a fault in returning.

use compare::bookmark::{
    self, Bookmark, CHARGE, COUNT, GL, GR, ISSUES, LENGTHS, MARKS, NAMES, NARROW, OFFSET, PLACE,
    REPEAT, SETS, STARTS, STORE, TEXT, WAITING, named, named_mut,
};
use compare::call::{Call, Rooms};
use compare::model::{ISSUE, Reading};
use compare::subject::{Lent, model};

use super::{Fault, returns};

/// A return from other numbers than the bookmark's.
macro_rules! from {
    ($change:expr) => {
        |call, name, store, lent| from((call, name, store, lent), $change)
    };
}

/// A return with a fault in what an accepted one left.
macro_rules! left {
    ($fault:expr) => {
        |call, name, store, lent| left((call, name, store, lent), $fault)
    };
}

/// A return that is refused with 15 where this holds of the numbers.
macro_rules! asked {
    ($wrong:expr) => {
        |call, name, store, lent| asked((call, name, store, lent), $wrong)
    };
}

pub const FAULTS: [Fault; 39] = [
    // What is read on.
    returns("the waiting repeat lost", true, from!(|numbers, _| numbers[REPEAT] = 0)),
    returns("the waiting marks lost", true, from!(|numbers, _| numbers[COUNT] = 0)),
    returns("the first mark's offset taken for the place", true, from!(offset_of_place)),
    returns("the size lost", true, from!(|numbers, _| numbers[NARROW] = 0)),
    returns("the sets of the start", true, sets_of_start),
    returns("GL and GR of the start", true, from!(shifts_of_start)),
    returns("macros lost", true, from!(|numbers, _| numbers[STARTS..CHARGE].fill(0))),
    returns("starts without the minus 1", true, from!(starts_moved)),
    returns("a budget begun anew", true, budget_anew),
    returns("all read again", true, |call, name, store, lent| {
        from((call, name, store, lent), |numbers, _| numbers[PLACE] = 0)
    }),
    // What is left.
    returns(
        "the rest's charge alone",
        true,
        left!(|lent, numbers| {
            lent.counts.iter_mut().skip(3).take(1).for_each(|n| *n -= numbers[CHARGE] as usize);
        }),
    ),
    returns(
        "positions counted from the bookmark",
        true,
        left!(|lent, numbers| {
            positions(lent, |position| position - numbers[TEXT]);
        }),
    ),
    returns(
        "the bytes of the whole text counted",
        true,
        left!(|lent, numbers| {
            lent.counts.iter_mut().skip(1).take(1).for_each(|n| *n += numbers[TEXT] as usize);
        }),
    ),
    returns(
        "all issues counted",
        true,
        left!(|lent, numbers| {
            lent.counts.iter_mut().skip(2).take(1).for_each(|n| *n += numbers[ISSUES] as usize);
        }),
    ),
    returns(
        "offsets from the place on",
        true,
        left!(|lent, numbers| {
            let issues = lent.issues.chunks_exact_mut(ISSUE);
            issues.for_each(|issue| issue[0] = issue[0].wrapping_sub(numbers[PLACE]));
        }),
    ),
    returns(
        "private-use characters not counted",
        true,
        left!(|lent, _| {
            lent.counts.iter_mut().skip(4).take(1).for_each(|n| *n = 0);
        }),
    ),
    returns(
        "a sixth count",
        true,
        left!(|lent, _| {
            lent.counts.iter_mut().skip(5).take(1).for_each(|n| *n = 0);
        }),
    ),
    returns(
        "the buffer behind the text not cleared",
        true,
        left!(|lent, _| {
            lent.text.iter_mut().rev().take(1).filter(|n| **n == 0).for_each(|n| *n = 0xA5);
        }),
    ),
    // What is refused.
    returns("an unset name returned to", true, unset),
    returns("the name in four bits", true, |call, name, store, lent| {
        model().go_on(call, name % NAMES as u32, store, lent)
    }),
    returns("a longer store accepted", true, |call, name, store, lent| {
        model().go_on(call, name, &store[..store.len().min(STORE)], lent)
    }),
    returns("9 before 8", true, |call, name, store, lent| {
        let both = rest(call, name, store).is_some_and(|rest| {
            lent.text.len() < rest.text.len() && lent.issues.len() / ISSUE < rest.issues.len()
        });
        let answer = model().go_on(call, name, store, lent);
        if both { 9 } else { answer }
    }),
    returns("a remainder taken for an issue", true, remainder),
    returns("the text left by a refused return", true, text_left),
    returns("counts left by a refused return", true, counts_left),
    // What is not asked.
    returns(
        "the place not asked",
        true,
        from!(|numbers, input| {
            numbers[PLACE] = numbers[PLACE].min(input.len() as u32);
        }),
    ),
    returns("a set not asked", true, from!(|numbers, _| numbers[SETS + 3] %= 32)),
    returns("GL not asked", true, from!(|numbers, _| numbers[GL] %= 4)),
    returns("GR not asked", true, from!(|numbers, _| numbers[GR] %= 4)),
    returns("narrow not asked", true, from!(|numbers, _| numbers[NARROW] %= 2)),
    returns("a repeat not asked", true, from!(|numbers, _| numbers[REPEAT] %= 64)),
    returns(
        "marks not counted",
        true,
        from!(|numbers, _| {
            numbers[COUNT] = numbers[COUNT].min(WAITING as u32);
        }),
    ),
    returns("a mark not asked", true, from!(marks_mended)),
    returns("a body's end not asked", true, from!(bodies_cut)),
    returns(
        "the charge not asked",
        true,
        from!(|numbers, input| {
            numbers[CHARGE] = numbers[CHARGE].min(64 * input.len() as u32 + 4_096);
        }),
    ),
    returns("the text's length not asked", true, from!(|numbers, _| numbers[TEXT] &= 0x7FFF_FFFF)),
    // What is asked beyond that.
    returns(
        "the first mark's offset asked",
        true,
        asked!(|numbers, input| { numbers[OFFSET] as usize > input.len() }),
    ),
    returns("the issues asked", true, asked!(|numbers, _| numbers[ISSUES] > 1 << 20)),
    returns(
        "marks behind the count asked",
        true,
        asked!(|numbers, _| {
            numbers[MARKS..STARTS].iter().skip(numbers[COUNT] as usize).any(|&mark| mark > 0)
        }),
    ),
];

type Given<'a> = (Call<'a>, u32, &'a [u32], Lent<'a>);

/// The rest, where the questions let it through.
fn rest(call: Call, name: u32, store: &[u32]) -> Option<Reading> {
    bookmark::go_on(call, name, store).ok()
}

/// Whether the store and the name are such that there is a bookmark.
fn is_there(name: u32, store: &[u32]) -> bool {
    (name as usize) < NAMES && store.len() == STORE
}

fn from(given: Given, change: impl FnOnce(&mut Bookmark, &[u8])) -> u32 {
    let (call, name, store, lent) = given;
    let mut store = store.to_vec();
    if is_there(name, &store) {
        change(named_mut(&mut store, name), call.input);
    }
    model().go_on(call, name, &store, lent)
}

fn left(given: Given, fault: impl FnOnce(&mut Lent, &Bookmark)) -> u32 {
    let (call, name, store, mut lent) = given;
    let answer = model().go_on(call, name, store, again(&mut lent));
    if answer == 0 {
        fault(&mut lent, named(store, name));
    }
    answer
}

/// The same buffers for another call.
fn again<'a>(lent: &'a mut Lent) -> Lent<'a> {
    Lent { text: lent.text, issues: lent.issues, counts: lent.counts }
}

fn asked(given: Given, wrong: impl FnOnce(&Bookmark, &[u8]) -> bool) -> u32 {
    let (call, name, store, mut lent) = given;
    let answer = model().go_on(call, name, store, again(&mut lent));
    if answer == 0 && wrong(named(store, name), call.input) {
        clear(&mut lent);
        return 15;
    }
    answer
}

/// What a refused call leaves.
fn clear(lent: &mut Lent) {
    lent.text.fill(0);
    lent.issues.fill(0);
    lent.counts.iter_mut().take(5).for_each(|count| *count = 0);
}

/// Each issue's position by what it is.
fn positions(lent: &mut Lent, position: impl Fn(u32) -> u32) {
    for issue in lent.issues.chunks_exact_mut(ISSUE).filter(|issue| issue[1] > 0) {
        issue[ISSUE - 1] = position(issue[ISSUE - 1]);
    }
}

fn offset_of_place(numbers: &mut Bookmark, _: &[u8]) {
    numbers[OFFSET] = numbers[PLACE];
}

fn shifts_of_start(numbers: &mut Bookmark, _: &[u8]) {
    (numbers[GL], numbers[GR]) = (0, 2);
}

fn sets_of_start(call: Call, name: u32, store: &[u32], lent: Lent) -> u32 {
    let at_start = call.between(0).filter(|_| call.questions() == 0);
    from((call, name, store, lent), |numbers, _| {
        if let Some(start) = at_start {
            numbers[SETS..GL].copy_from_slice(&start.elements);
        }
    })
}

fn starts_moved(numbers: &mut Bookmark, input: &[u8]) {
    for code in 0..LENGTHS - STARTS {
        let end = numbers[STARTS + code].saturating_add(numbers[LENGTHS + code]);
        if numbers[STARTS + code] > 0 && end <= input.len() as u32 {
            numbers[STARTS + code] += 1;
            let body = &input[numbers[STARTS + code] as usize - 1..end as usize];
            let ended = body.windows(2).position(|pair| pair == [0x95, 0x4F]);
            numbers[LENGTHS + code] = ended.map_or(body.len(), |at| at + 1) as u32;
        }
    }
}

/// The charge is then as it should be, the bodies that run may not.
fn budget_anew(call: Call, name: u32, store: &[u32], mut lent: Lent) -> u32 {
    if rest(call, name, store).is_none() {
        return model().go_on(call, name, store, lent);
    }
    let charge = named(store, name)[CHARGE] as usize;
    let answer = from((call, name, store, again(&mut lent)), |numbers, _| numbers[CHARGE] = 0);
    if answer == 0 {
        lent.counts.iter_mut().skip(3).take(1).for_each(|n| *n += charge);
    }
    answer
}

fn unset(call: Call, name: u32, store: &[u32], lent: Lent) -> u32 {
    let start = call.between(0).filter(|_| call.questions() == 0).map(|start| bookmark::of(&start));
    from((call, name, store, lent), |numbers, _| {
        if let (0, Some(start)) = (numbers[0], start) {
            *numbers = start;
        }
    })
}

/// As many issues as fit, where a remainder is all that lacks.
fn remainder(call: Call, name: u32, store: &[u32], mut lent: Lent) -> u32 {
    let answer = model().go_on(call, name, store, again(&mut lent));
    match rest(call, name, store) {
        Some(rest) if answer == 9 && lent.issues.len().div_ceil(ISSUE) == rest.issues.len() => {
            let numbers = rest.issues.as_flattened();
            lent.text[..rest.text.len()].copy_from_slice(&rest.text);
            lent.issues.copy_from_slice(&numbers[..lent.issues.len()]);
            lent.counts.iter_mut().zip(rest.counts()).for_each(|(count, n)| *count = n);
            0
        }
        _ => answer,
    }
}

fn text_left(call: Call, name: u32, store: &[u32], mut lent: Lent) -> u32 {
    let answer = model().go_on(call, name, store, again(&mut lent));
    if let (9, Some(rest)) = (answer, rest(call, name, store)) {
        lent.text[..rest.text.len()].copy_from_slice(&rest.text);
    }
    answer
}

fn counts_left(call: Call, name: u32, store: &[u32], mut lent: Lent) -> u32 {
    let answer = model().go_on(call, name, store, again(&mut lent));
    if let (8, Some(rest)) = (answer, rest(call, name, store)) {
        let Rooms { text, .. } = Rooms::exact(&rest);
        lent.counts.iter_mut().skip(1).take(1).for_each(|count| *count = text);
    }
    answer
}

fn marks_mended(numbers: &mut Bookmark, _: &[u8]) {
    let count = (numbers[COUNT] as usize).min(WAITING);
    for mark in &mut numbers[MARKS..][..count] {
        if !matches!(*mark, 0x300 | 0x301 | 0x302 | 0x305 | 0x308 | 0x332 | 0x20DD) {
            *mark = 0x301;
        }
    }
}

/// A body is cut where the bytes are that end one.
fn bodies_cut(numbers: &mut Bookmark, input: &[u8]) {
    for code in 0..LENGTHS - STARTS {
        let start = numbers[STARTS + code].saturating_sub(1) as usize;
        let length = numbers[LENGTHS + code] as usize;
        let body = input.get(start..start + length).unwrap_or_default();
        if let Some(end) = body.windows(2).position(|pair| pair == [0x95, 0x4F]) {
            numbers[LENGTHS + code] = end as u32;
        }
    }
}
