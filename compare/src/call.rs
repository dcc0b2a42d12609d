//! A call of decoding or coding: what it is given, and what 01 says of its answer.

use std::fmt::{self, Display, Formatter};

use oracle::coding::{Refusal, refusal};
use oracle::options::Options;

use crate::coding::{Coding, STATE};
use crate::model::{self, Between, ISSUE, Reading};

/// How many numbers a cell table has.
pub const CELLS: usize = 94 * 94;
/// The longest input that question 3 lets through.
pub const LONGEST: usize = 65_535;
/// The longest text to code.
pub const LONGEST_TEXT: usize = 7_281;

/// What a call is given, its buffers aside. The input of coding is a text.
#[derive(Clone, Copy)]
pub struct Call<'a> {
    pub cells: &'a [u16],
    pub initial: u32,
    pub width: u32,
    pub input: &'a [u8],
}

/// The lengths of what decoding is lent: bytes of text, numbers of issues.
#[derive(Debug, Clone, Copy, Default, PartialEq, Eq)]
pub struct Rooms {
    pub text: usize,
    pub issues: usize,
}

/// The lengths of what coding is lent: numbers of the store, bytes of the coding.
#[derive(Debug, Clone, Copy, Default, PartialEq, Eq)]
pub struct CodingRooms {
    pub store: usize,
    pub coding: usize,
}

/// What a call must answer: its result, or a refusal and nothing.
pub type Answer<'a, T> = Result<&'a T, Refusal>;

/// No refusal, or the one that a number other than 0 names. It has no place.
pub fn question(number: u32) -> Result<(), Refusal> {
    if number == 0 { Ok(()) } else { Err(refusal(number, 0)) }
}

/// Number and place of the refusal, 0 for none, and the result, or what stands for none.
pub fn numbered<'a, T>(answer: Answer<'a, T>, nothing: &'a T) -> (Refusal, &'a T) {
    match answer {
        Ok(result) => (refusal(0, 0), result),
        Err(refusal) => (refusal, nothing),
    }
}

/// All four pairs of options.
pub const OPTIONS: [(u32, u32); 4] = [(0, 0), (0, 1), (1, 0), (1, 1)];

/// The calls of an input under all options.
pub fn under_all<'a>(cells: &'a [u16], input: &'a [u8]) -> [Call<'a>; 4] {
    OPTIONS.map(|(initial, width)| Call { cells, initial, width, input })
}

impl Call<'_> {
    /// Questions 1 to 3 of decoding: the refusal's number, or 0.
    pub fn questions(&self) -> u32 {
        self.first_questions(LONGEST)
    }

    /// Questions 1 to 3 of coding.
    pub fn text_questions(&self) -> u32 {
        self.first_questions(LONGEST_TEXT)
    }

    fn first_questions(&self, longest: usize) -> u32 {
        if !served(self.cells) {
            1
        } else if self.initial > 1 || self.width > 1 {
            2
        } else if self.input.len() > longest {
            3
        } else {
            0
        }
    }

    /// The Rust's options, for a call that question 2 lets through.
    pub fn options(&self) -> Options {
        Options::from_numbers(self.initial, self.width).expect("0 or 1")
    }

    /// The model's reading, for a call that questions 1 to 3 let through.
    pub fn read(&self, reading: &mut Reading) {
        model::read(self.cells, self.initial, self.width, self.input, reading);
    }

    /// The model's reading between steps, at this place, if an outermost step begins there or it is
    /// the end.
    pub fn between(&self, place: usize) -> Option<Between> {
        model::between(self.cells, self.initial, self.width, self.input, place)
    }

    /// All such places.
    pub fn places(&self) -> Vec<usize> {
        model::places(self.cells, self.initial, self.width, self.input)
    }

    /// The model's reading from there on.
    pub fn read_on(&self, from: &Between, reading: &mut Reading) {
        model::read_on(self.cells, self.width, self.input, from, reading);
    }
}

impl Rooms {
    /// Questions 8 and 9: the refusal's number, or 0. A remainder of the numbers holds no issue.
    pub fn questions(&self, reading: &Reading) -> u32 {
        if reading.text.len() > self.text {
            8
        } else if reading.issues.len() > self.issues / ISSUE {
            9
        } else {
            0
        }
    }

    /// Just enough.
    pub fn exact(reading: &Reading) -> Rooms {
        Rooms { text: reading.text.len(), issues: ISSUE * reading.issues.len() }
    }
}

impl Display for Rooms {
    fn fmt(&self, f: &mut Formatter<'_>) -> fmt::Result {
        write!(f, "text {}, issues {}", self.text, self.issues)
    }
}

impl CodingRooms {
    /// Questions 7 and 8: the refusal's number, or 0.
    pub fn questions(&self, coding: &Coding) -> u32 {
        if coding.numbers > self.store {
            7
        } else if coding.bytes.len() > self.coding {
            8
        } else {
            0
        }
    }

    /// Just enough.
    pub fn exact(coding: &Coding) -> CodingRooms {
        CodingRooms { store: coding.numbers, coding: coding.bytes.len() }
    }

    /// With four numbers for each state, as question 7 once asked.
    pub fn older(coding: &Coding) -> CodingRooms {
        CodingRooms { store: STATE * coding.states, ..CodingRooms::exact(coding) }
    }
}

impl Display for CodingRooms {
    fn fmt(&self, f: &mut Formatter<'_>) -> fmt::Result {
        write!(f, "store {}, coding {}", self.store, self.coding)
    }
}

/// Question 1: rows 9 to 15 and 85 to 94 are empty.
fn served(cells: &[u16]) -> bool {
    let empty =
        |first: usize, last: usize| cells[(first - 1) * 94..last * 94].iter().all(|&c| c == 0);
    let surrogates = || cells.iter().filter(|&&c| c & 0xF800 == 0xD800).count();
    cells.len() == CELLS && surrogates() == 0 && empty(9, 15) && empty(85, 94)
}
