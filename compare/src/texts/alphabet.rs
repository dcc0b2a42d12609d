//! The characters that a cell table and the one-byte tables have, by kind.

use std::collections::BTreeSet;

use crate::model::tables;
use crate::random::Random;

/// Lists of characters, one for each kind that has any.
pub struct Alphabet {
    kinds: Vec<Vec<char>>,
}

/// In how many lists each text's mixture can draw.
const MOST: usize = 6;

impl Alphabet {
    pub fn new(cells: &[u16]) -> Alphabet {
        let kanji = |row, cell| tables::kanji(cells, row, cell);
        let rows = |rows| of_rows(rows, kanji);
        let additional = of_rows(85..=94, tables::additional);
        let shared: BTreeSet<char> = of_rows(1..=94, kanji).into_iter().collect();
        let signs = of_codes(tables::hiragana).split_off(85);
        let kinds = [
            of_codes(tables::hiragana),
            of_codes(tables::katakana),
            signs,
            of_codes(|code| tables::alphanumeric(code, true)),
            of_codes(|code| tables::alphanumeric(code, false)),
            of_codes(tables::jis_x0201_katakana),
            rows(1..=2),
            rows(3..=8),
            rows(16..=47),
            rows(48..=84),
            rows(90..=94),
            additional.iter().copied().filter(|c| !shared.contains(c)).collect(),
            additional,
            vec![' ', '\u{3000}'],
            vec!['\n'],
        ];
        Alphabet { kinds: kinds.into_iter().filter(|kind| !kind.is_empty()).collect() }
    }

    /// Every character once, marks not among them.
    pub fn all(&self) -> Vec<char> {
        let once: BTreeSet<char> = self.kinds.iter().flatten().copied().collect();
        once.into_iter().collect()
    }

    /// A text of so many characters of some kinds, in runs, some texts with marks.
    pub fn mixture(&self, random: &mut Random, length: usize) -> String {
        let kinds = self.some(random);
        let run = random.one_of(&[1, 3, 8]);
        let marked = random.once_in(6);
        let mut text = String::new();
        let mut left = length;
        while left > 0 {
            let kind = random.one_of(&kinds);
            let count = random.range(1, run).min(left);
            (0..count).for_each(|_| put(&mut text, random, kind, marked));
            left -= count;
        }
        text
    }

    fn some(&self, random: &mut Random) -> Vec<&[char]> {
        let count = random.range(1, MOST);
        (0..count).map(|_| &self.kinds[random.below(self.kinds.len())][..]).collect()
    }
}

/// One of the marks.
pub fn mark(random: &mut Random) -> char {
    random.one_of(&tables::MARKS).2
}

/// A character of the kind, with marks after some of them.
fn put(text: &mut String, random: &mut Random, kind: &[char], marked: bool) {
    let c = random.one_of(kind);
    text.push(c);
    if marked && c != '\n' && random.once_in(3) {
        (0..random.range(1, 3)).for_each(|_| text.push(mark(random)));
    }
}

/// The characters of a one-byte table.
fn of_codes(read: impl Fn(u8) -> Option<char>) -> Vec<char> {
    (0x21..=0x7E).filter_map(read).collect()
}

/// The characters of the rows, marks not among them.
fn of_rows(rows: std::ops::RangeInclusive<u8>, read: impl Fn(u8, u8) -> Option<char>) -> Vec<char> {
    let cells = oracle::cells::all().filter(|(row, _)| rows.contains(row));
    cells.filter_map(|(row, cell)| read(row, cell)).filter(|&c| !tables::is_mark(c)).collect()
}
