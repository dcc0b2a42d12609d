//! A state of the search: the sets of G0 to G3, the elements in GL and GR, and the size.

use crate::model::sets::{self, Set};

/// The sets that an element can hold while coding. A state has their places in this list.
pub const SETS: [Set; 7] = [
    sets::KANJI,
    sets::ALPHANUMERIC,
    sets::HIRAGANA,
    sets::KATAKANA,
    sets::JIS_X0201_KATAKANA,
    sets::ADDITIONAL,
    sets::MACRO,
];

/// Packed: three bits for each set, two for the element in GL, two for GR's, one for narrow.
#[derive(Debug, Clone, Copy, PartialEq, Eq)]
pub struct State(u32);

/// Every packed state is below.
pub const STATES: usize = 1 << 17;

const GL: u32 = 12;
const GR: u32 = 14;
const NARROW: u32 = 16;

impl State {
    pub fn start(caption: bool) -> State {
        let invoked = State(0).with_gl(0).with_gr(2);
        let elements = sets::at_start(caption).into_iter().enumerate();
        elements.fold(invoked, |state, (element, set)| state.with_set(element, place(set)))
    }

    /// The state's number.
    pub fn index(self) -> usize {
        self.0 as usize
    }

    /// The place in `SETS` of what the element holds.
    pub fn set(self, element: usize) -> usize {
        self.part(3 * element as u32, 7)
    }

    pub fn gl(self) -> usize {
        self.part(GL, 3)
    }

    pub fn gr(self) -> usize {
        self.part(GR, 3)
    }

    pub fn narrow(self) -> bool {
        self.part(NARROW, 1) == 1
    }

    pub fn with_set(self, element: usize, set: usize) -> State {
        self.with(3 * element as u32, 7, set)
    }

    pub fn with_gl(self, element: usize) -> State {
        self.with(GL, 3, element)
    }

    pub fn with_gr(self, element: usize) -> State {
        self.with(GR, 3, element)
    }

    pub fn with_narrow(self, narrow: bool) -> State {
        self.with(NARROW, 1, narrow.into())
    }

    fn part(self, from: u32, mask: u32) -> usize {
        (self.0 >> from & mask) as usize
    }

    fn with(self, from: u32, mask: u32, part: usize) -> State {
        State(self.0 & !(mask << from) | (part as u32) << from)
    }
}

/// The place of a set in `SETS`.
pub fn place(set: Set) -> usize {
    SETS.iter().position(|&s| s == set).expect("a set that coding uses")
}
