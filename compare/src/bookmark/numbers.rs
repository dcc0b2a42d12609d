//! The numbers of a bookmark: "1 if set, place, sets of G0 to G3, GL and GR as 0 to 3, 1 if the
//! size is Small, Middle or SZX 60, waiting repeat, count of waiting marks, the first one's offset,
//! sixteen marks, by code 128 macro starts, each plus 1, and 128 lengths, charge so far, text
//! length without waiting marks, issues; 0 where there is none."

use std::array;

use super::{Bookmark, WAITING};
use crate::model::tables::is_mark;
use crate::model::{Between, sets};

/// How many macro codes there are.
const CODES: usize = 128;

/// Where they stand, behind the first.
pub const PLACE: usize = 1;
pub const SETS: usize = 2;
pub const GL: usize = 6;
pub const GR: usize = 7;
pub const NARROW: usize = 8;
pub const REPEAT: usize = 9;
pub const COUNT: usize = 10;
pub const OFFSET: usize = 11;
pub const MARKS: usize = 12;
pub const STARTS: usize = MARKS + WAITING;
pub const LENGTHS: usize = STARTS + CODES;
pub const CHARGE: usize = LENGTHS + CODES;
pub const TEXT: usize = CHARGE + 1;
pub const ISSUES: usize = TEXT + 1;

/// The greatest repeat, and the longest text.
const REPEATS: u32 = 63;
const LONGEST: u32 = 0x7FFF_FFFF;

/// The numbers of a reading between steps, one behind the other. At most sixteen marks wait.
pub fn of(between: &Between) -> Bookmark {
    let Between { marks, bodies, .. } = between;
    let mut all = vec![1, between.at as u32];
    all.extend(between.elements);
    all.extend([between.gl as u32, between.gr as u32, between.narrow.into()]);
    all.push(between.repeat.unwrap_or(0));
    all.extend([marks.len() as u32, marks.first().map_or(0, |&(_, offset)| offset)]);
    all.extend((0..WAITING).map(|n| marks.get(n).map_or(0, |&(mark, _)| mark.into())));
    all.extend(bodies.map(|body| body.map_or(0, |(start, _)| start + 1)));
    all.extend(bodies.map(|body| body.map_or(0, |(start, end)| end - start)));
    all.extend([between.charge, between.text, between.issues].map(|n| n as u32));
    all.try_into().expect("287 numbers")
}

/// The reading between steps that has these numbers; none where no reading of this input has them:
/// what would not be a place, a set, an element, a repeat, a mark, a body or a charge of one.
pub fn between(numbers: &Bookmark, input: &[u8]) -> Option<Between> {
    let count = |at: usize| numbers[at] as usize;
    let within = numbers[0] == 1
        && count(PLACE) <= input.len()
        && numbers[SETS..GL].iter().all(|&set| set <= sets::LAST)
        && numbers[GL] <= 3
        && numbers[GR] <= 3
        && numbers[NARROW] <= 1
        && numbers[REPEAT] <= REPEATS
        && count(COUNT) <= WAITING
        && count(CHARGE) <= 64 * input.len() + 4_096
        && numbers[TEXT] <= LONGEST;
    if !within {
        return None;
    }
    let mark = |&number: &u32| {
        let mark = char::from_u32(number).filter(|&mark| is_mark(mark));
        mark.map(|mark| (mark, numbers[OFFSET]))
    };
    let marks = numbers[MARKS..][..count(COUNT)].iter().map(mark).collect::<Option<Vec<_>>>()?;
    let bodies = (0..CODES).map(|code| body(input, count(STARTS + code), count(LENGTHS + code)));
    let bodies = bodies.collect::<Option<Vec<_>>>()?;
    Some(Between {
        at: count(PLACE),
        elements: array::from_fn(|n| numbers[SETS + n]),
        gl: count(GL),
        gr: count(GR),
        narrow: numbers[NARROW] == 1,
        repeat: Some(numbers[REPEAT]).filter(|&repeat| repeat > 0),
        marks,
        bodies: array::from_fn(|code| bodies[code]),
        charge: count(CHARGE),
        text: count(TEXT),
        issues: count(ISSUES),
    })
}

/// The body with this start plus 1 and this length, if it is defined, which one at 0 is not: within the input, and without
/// the bytes that end one. They are asked of a code without a body too.
fn body(input: &[u8], start: usize, length: usize) -> Option<Option<(u32, u32)>> {
    let first = start.saturating_sub(1);
    let bytes = input.get(first..first + length)?;
    if bytes.windows(2).any(|pair| pair == [0x95, 0x4F]) {
        return None;
    }
    Some((first > 0).then_some((first as u32, (first + length) as u32)))
}
