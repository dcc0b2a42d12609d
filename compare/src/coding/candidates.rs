//! What can write a character (000: `candidates`).

use std::collections::HashMap;

use super::state::{SETS, place};
use crate::model::{sets, tables};

/// A code that writes a character.
#[derive(Debug, Clone, Copy)]
pub struct Candidate {
    /// The place of its set in `SETS`; SP and newline need no set.
    pub set: Option<usize>,
    /// The code's bytes in GL's form, and how many they are.
    pub code: [u8; 2],
    pub length: usize,
    /// The size that it needs: narrow, wide, or either.
    pub narrow: Option<bool>,
}

impl Candidate {
    /// The code's bytes in GL's form.
    pub fn code(&self) -> &[u8] {
        &self.code[..self.length]
    }

    /// The number of its set.
    pub fn number(&self) -> Option<sets::Set> {
        self.set.map(|place| SETS[place])
    }
}

/// The cell of each character of the Kanji set, for the table last lent.
#[derive(Default)]
pub struct Repertoire {
    cells: Vec<u16>,
    kanji: HashMap<char, [u8; 2]>,
    additional: HashMap<char, [u8; 2]>,
}

impl Repertoire {
    /// Takes the table for the texts that follow.
    pub fn lend(&mut self, cells: &[u16]) {
        if self.cells != cells {
            self.cells = cells.to_vec();
            self.kanji = first_cells(|row, cell| tables::kanji(cells, row, cell));
            self.additional = first_cells(tables::additional);
        }
    }

    /// All candidates, in the order of trial.
    pub fn candidates(&self, c: char, annex_e: bool) -> Vec<Candidate> {
        if c == '\n' {
            return vec![control(0x0D, None)];
        }
        if let Some(code) = tables::mark_cell(c) {
            return vec![two_bytes(sets::KANJI, code, None)];
        }
        let kanji = self.kanji.get(&c).map(|&code| two_bytes(sets::KANJI, code, Some(false)));
        let additional =
            self.additional.get(&c).map(|&code| two_bytes(sets::ADDITIONAL, code, Some(false)));
        let alphanumeric = |narrow| {
            one_byte(sets::ALPHANUMERIC, narrow, c, |code| tables::alphanumeric(code, narrow))
        };
        let all = [
            one_byte(sets::HIRAGANA, false, c, tables::hiragana),
            one_byte(sets::KATAKANA, false, c, tables::katakana),
            alphanumeric(true),
            if annex_e { None } else { alphanumeric(false) },
            kanji,
            additional,
            one_byte(sets::JIS_X0201_KATAKANA, true, c, tables::jis_x0201_katakana),
            space(c, annex_e),
        ];
        all.into_iter().flatten().collect()
    }
}

/// SP: narrow for U+0020; wide for U+3000, except with AnnexE, where it reads as U+0020.
fn space(c: char, annex_e: bool) -> Option<Candidate> {
    match c {
        ' ' => Some(control(0x20, Some(true))),
        '\u{3000}' if !annex_e => Some(control(0x20, Some(false))),
        _ => None,
    }
}

fn control(code: u8, narrow: Option<bool>) -> Candidate {
    Candidate { set: None, code: [code, 0], length: 1, narrow }
}

fn two_bytes(set: sets::Set, code: [u8; 2], narrow: Option<bool>) -> Candidate {
    Candidate { set: Some(place(set)), code, length: 2, narrow }
}

/// The first code of a one-byte set that reads as the character.
fn one_byte(
    set: sets::Set,
    narrow: bool,
    c: char,
    read: impl Fn(u8) -> Option<char>,
) -> Option<Candidate> {
    let code = (0x21..=0x7E).find(|&code| read(code) == Some(c))?;
    Some(Candidate { set: Some(place(set)), code: [code, 0], length: 1, narrow: Some(narrow) })
}

/// Each character's first cell in row order, as two bytes in GL's form.
fn first_cells(read: impl Fn(u8, u8) -> Option<char>) -> HashMap<char, [u8; 2]> {
    let mut first = HashMap::with_capacity(94 * 94);
    for (row, cell) in oracle::cells::all() {
        if let Some(c) = read(row, cell) {
            first.entry(c).or_insert([row + 0x20, cell + 0x20]);
        }
    }
    first
}
