//! Characters by code (000: tables.rs, addsym.rs).

use std::sync::OnceLock;

use crate::cells::index;

/// The non-spacing cells of the Kanji set (Table E-1).
pub const MARKS: [(u8, u8, char); 7] = [
    (1, 13, '\u{301}'),
    (1, 14, '\u{300}'),
    (1, 15, '\u{308}'),
    (1, 16, '\u{302}'),
    (1, 17, '\u{305}'),
    (1, 18, '\u{332}'),
    (2, 94, '\u{20DD}'),
];

/// The cells whose character does not come from the lent table (Annex E.1).
const OVERRIDES: [(u8, u8, char); 7] = [
    (1, 29, '\u{2014}'),
    (1, 33, '\u{301C}'),
    (1, 34, '\u{2016}'),
    (1, 61, '\u{2212}'),
    (1, 81, '\u{A2}'),
    (1, 82, '\u{A3}'),
    (2, 44, '\u{AC}'),
];

/// The last codes of both kana sets, from 79.
const KANA_SIGNS: [char; 6] = ['ー', '。', '「', '」', '、', '・'];

/// Whether the character is a mark, from whichever cell it was read.
pub fn is_mark(c: char) -> bool {
    MARKS.iter().any(|&(_, _, mark)| mark == c)
}

/// A mark's own cell, as two bytes in GL's form.
pub fn mark_cell(c: char) -> Option<[u8; 2]> {
    let own = MARKS.iter().find(|&&(_, _, mark)| mark == c);
    own.map(|&(row, cell, _)| [row + 0x20, cell + 0x20])
}

/// The alphanumeric set, narrow or wide (Table 7-5).
pub fn alphanumeric(code: u8, narrow: bool) -> Option<char> {
    match (code, narrow) {
        (0x5C, true) => Some('\u{A5}'),
        (0x5C, false) => Some('\u{FFE5}'),
        (_, true) => Some(char::from(code)),
        (_, false) => char::from_u32(0xFF00 + u32::from(code) - 0x20),
    }
}

/// The hiragana set (Table 7-7).
pub fn hiragana(code: u8) -> Option<char> {
    kana(code, 0x73, 'ぁ', 'ゝ')
}

/// The katakana set (Table 7-6).
pub fn katakana(code: u8) -> Option<char> {
    kana(code, 0x76, 'ァ', 'ヽ')
}

/// Letters from 21 to `last`, two iteration marks, and the signs.
fn kana(code: u8, last: u8, letters: char, iteration: char) -> Option<char> {
    match code {
        0x77 | 0x78 => run(iteration, code - 0x77),
        0x79..=0x7E => Some(KANA_SIGNS[usize::from(code) - 0x79]),
        0x21.. if code <= last => run(letters, code - 0x21),
        _ => None,
    }
}

/// The JIS X 0201 katakana set (Table 7-9).
pub fn jis_x0201_katakana(code: u8) -> Option<char> {
    if code < 0x60 { run('｡', code - 0x21) } else { None }
}

/// The Kanji set (Table 7-4): the marks first, then the row 90 gaps, then rows 90 to 94, then
/// the overrides and the lent table.
pub fn kanji(cells: &[u16], row: u8, cell: u8) -> Option<char> {
    if let Some(mark) = of_list(&MARKS, row, cell) {
        return Some(mark);
    }
    match (row, cell) {
        (90, 45..=63 | 66..=84) => None,
        (90.., _) => additional(row, cell),
        _ => of_list(&OVERRIDES, row, cell).or_else(|| lent(cells, row, cell)),
    }
}

/// The additional symbols set. Its cells are data of the Rust, read once.
pub fn additional(row: u8, cell: u8) -> Option<char> {
    static CELLS: OnceLock<Vec<Option<char>>> = OnceLock::new();
    let symbol = |(row, cell)| isdb_text::tables::additional_symbols(row, cell);
    CELLS.get_or_init(|| oracle::cells::all().map(symbol).collect())[index(row, cell)]
}

fn lent(cells: &[u16], row: u8, cell: u8) -> Option<char> {
    char::from_u32(cells[index(row, cell)].into()).filter(|&c| c != '\0')
}

fn of_list(list: &[(u8, u8, char)], row: u8, cell: u8) -> Option<char> {
    list.iter().find(|&&(r, c, _)| (r, c) == (row, cell)).map(|&(_, _, c)| c)
}

/// The character `n` places after `first`.
fn run(first: char, n: u8) -> Option<char> {
    char::from_u32(u32::from(first) + u32::from(n))
}
