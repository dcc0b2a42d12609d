//! Inputs of the cases.

use super::Stock;
use crate::call::LONGEST;
use crate::entries::MOST;
use crate::inputs::bombs;
use crate::titles;

/// The first level's kanji, rows 16 to 47, over and over.
pub fn kanji() -> Vec<u8> {
    let cells = |row: u8| (1..=if row == 47 { 51 } else { 94 }).map(move |cell: u8| (row, cell));
    let level = (16..=47).flat_map(cells).flat_map(|(row, cell)| [row + 0x20, cell + 0x20]);
    level.cycle().take(LONGEST - 1).collect()
}

/// Hiragana in GR, over and over.
pub fn kana() -> Vec<u8> {
    (0xA1..=0xF3).cycle().take(LONGEST).collect()
}

/// A body of 65 kana, called until the budget is spent.
pub fn macro_kana() -> Vec<u8> {
    bombs::called(&[0xA2; 65], LONGEST)
}

/// A body of one kana, called by a body of 32 calls, as often as the budget just pays for.
pub fn macro_one_byte() -> Vec<u8> {
    bombs::chain(&[&[0xA2], &[0x21; 32]], LONGEST)
}

/// The same of an empty body, in a body of 64 calls.
pub fn macro_empty() -> Vec<u8> {
    bombs::chain(&[&[], &[0x21; 64]], LONGEST)
}

/// An undefined control, and all of an input but its last byte.
pub fn behind_issue(mut input: Vec<u8>) -> Vec<u8> {
    input.rotate_right(1);
    input[0] = 0xA0;
    input
}

/// The titles with an undefined control behind each byte.
pub fn damaged_titles() -> Vec<Vec<u8>> {
    let damaged = |title: Vec<u8>| title.into_iter().flat_map(|byte| [byte, 0xA0]).collect();
    titles::all().into_iter().map(damaged).collect()
}

/// Hiragana of which each eighth is an undefined control.
pub fn damaged_kana() -> Vec<u8> {
    let mut input = kana();
    input.iter_mut().skip(7).step_by(8).for_each(|byte| *byte = 0xA0);
    input
}

/// Lines as a caption has them: colours, sizes, kanji, kana, katakana by designation, letters by
/// LS1, an additional symbol, a repeat, a mark, a newline.
pub fn mixed() -> Vec<u8> {
    let line: &[&[u8]] = &[
        &[0x87, 0x90, 0x51, 0x8A],
        &[0x46, 0x7C, 0x4B, 0x5C, 0xCE, 0x45, 0x37, 0x35, 0x24, 0xC7, 0xB9],
        &[0x1B, 0x29, 0x31, 0x0E, 0x46, 0x6C, 0x53, 0x0F],
        &[0x1B, 0x29, 0x4A, 0x89, 0x0E, 0x31, 0x32, 0x3A, 0x30, 0x30, 0x20, 0x0F, 0x8A],
        &[0x1B, 0x24, 0x3B, 0x7A, 0x56, 0x1B, 0x24, 0x42],
        &[0x83, 0x8B, 0x60, 0xAB, 0xE9, 0x8A, 0x98, 0x43, 0xFE, 0x21, 0x2D, 0xA2],
        &[0x9D, 0x20, 0x41, 0x9B, 0x33, 0x3B, 0x34, 0x20, 0x61],
        &[0x20, 0x0D],
    ];
    let line = line.concat();
    line.repeat(LONGEST / line.len())
}

/// Lines with marks: each of the seven in turn over a kanji, two kana before it.
pub fn marks() -> Vec<u8> {
    let marks = (0x2D..=0x32).map(|cell| [0x21, cell]).chain([[0x22, 0x7E]]);
    let words = marks.flat_map(|[row, cell]| [0xB3, 0xCE, row, cell, 0x36, 0x4A]);
    let line: Vec<u8> = words.chain([0x0D]).collect();
    line.repeat(LONGEST / line.len())
}

/// Lines with private-use characters: two kana, a kanji and the additional symbol 92-26 in turn.
pub fn private_use() -> Vec<u8> {
    let mut line = [0xB3, 0xCE, 0x36, 0x4A, 0x7C, 0x3A].repeat(7);
    line.push(0x0D);
    line.repeat(LONGEST / line.len())
}

/// Keys to seek: those of the first, the middle and the last entry, and one that none has.
pub fn sought(stock: Stock) -> Vec<Vec<u8>> {
    let count = stock.entries(MOST).len();
    let held = if count == 0 { vec![] } else { vec![0, count / 2, count - 1] };
    held.into_iter().chain([MOST]).map(|n| stock.key(n)).collect()
}
