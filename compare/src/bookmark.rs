//! Bookmarks, as request 9 tells them: sixteen names for places of one input. A refusal is its
//! number.

mod numbers;

pub use numbers::{
    CHARGE, COUNT, GL, GR, ISSUES, LENGTHS, MARKS, NARROW, OFFSET, PLACE, REPEAT, SETS, STARTS,
    TEXT, of,
};

use crate::call::Call;
use crate::model::Reading;

/// "name a place with 0 to 15", "sixteen bookmarks of 287 32-bit numbers", "sixteen marks"
pub const NAMES: usize = 16;
pub const NUMBERS: usize = 287;
pub const STORE: usize = NAMES * NUMBERS;
pub const WAITING: usize = 16;

/// The numbers of one.
pub type Bookmark = [u32; NUMBERS];

/// The bookmark of this name, in a store of the length.
pub fn named(store: &[u32], name: u32) -> &Bookmark {
    &store.as_chunks().0[name as usize]
}

/// The same to be replaced.
pub fn named_mut(store: &mut [u32], name: u32) -> &mut Bookmark {
    &mut store.as_chunks_mut().0[name as usize]
}

/// What the bookmark of this name is from now on. "After questions 1 to 3 a name above 15 [..], or
/// a store of another length or with a bookmark's first number above 1, is 15; then a place where
/// no outermost step begins, the input's end excepted, or where more than sixteen marks wait, is
/// 16."
pub fn set(call: Call, place: usize, name: u32, store: &[u32]) -> Result<Bookmark, u32> {
    questions(call, name, store)?;
    let between = call.between(place).filter(|between| between.marks.len() <= WAITING);
    between.map(|between| numbers::of(&between)).ok_or(16)
}

/// "Going on from one over the same input yields the rest of the text and issues that a reading
/// from the start yields, issue places included; counts are the rest's, the charge the whole
/// reading's." An unset name is 15, and so are numbers that no reading of this input has.
pub fn go_on(call: Call, name: u32, store: &[u32]) -> Result<Reading, u32> {
    questions(call, name, store)?;
    let from = numbers::between(named(store, name), call.input).ok_or(15u32)?;
    let mut reading = Reading::default();
    call.read_on(&from, &mut reading);
    Ok(reading)
}

/// Questions 1 to 3, then 15 for the name and the store.
fn questions(call: Call, name: u32, store: &[u32]) -> Result<(), u32> {
    let first = |bookmark: &Bookmark| bookmark[0];
    match call.questions() {
        0 if name as usize >= NAMES || store.len() != STORE => Err(15),
        0 if store.as_chunks().0.iter().map(first).any(|set| set > 1) => Err(15),
        0 => Ok(()),
        number => Err(number),
    }
}
