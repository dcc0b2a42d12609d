//! Inputs to set bookmarks in: around macros, marks, repeats, sizes, sets and shifts.

use oracle::hex;

use crate::inputs::{self, Writer};
use crate::model::tables::MARKS;
use crate::random::Random;

/// Macro in G3, whatever the options: SS3 then calls.
const CALLS: &str = "1B2B2070";

/// In hexadecimal. A dot stands for Macro in G3.
const CORNERS: &[&str] = &[
    // A step that sees bytes behind a place where one could begin: an escape, a single shift, TIME,
    // a character of two bytes, a colour, a definition.
    "1B24A2",
    "190DA2",
    "9D2930A2",
    "A2304124A2A4",
    "902041A2",
    "954021A2954FA4",
    "9540212122",
    // Repeats that wait: before other controls, newlines, marks, a definition, a call, a
    // placeholder, a mosaic, another repeat, the end.
    "984387904189A2",
    "98430D8A0DA2",
    "9843212D21309F7C21A2",
    ".98439540 21A2A4954F1D21A6",
    "984329219842A2",
    "98431B2932 0E21A2",
    "9843987FA2A4",
    "98439840A29843",
    "9843 20 2189 9842 20",
    // Sizes.
    "88 0E41 8A41 8B6041 8BE041 8941 8B4141",
    "8920 0D 8A20 8B6020",
    // Sets of all kinds in all elements, and all shifts.
    "1B2830 21 1B2931 0E21 1B2A36 1B6E21 1B2B37 1B6F21 0F21",
    "1B2838 21 1B2949 0E21A1 1B2A4A A1 1B2B30 1B7CA1 1B7EA1 1B7DA1",
    "1B2439 3021 1B24293A 0E3021 1B242A3B FABA 1B242B42 1D3021 1DB0A1",
    "1B242820402121 1B28204121 1B29204F0E21 1B2A2070A1 1B2B20411D21",
    "1B283221 1B283321 1B283421 1B283521",
    "192119A11D211DA1 0E2119A1",
    // Macros: defined, called, defined anew and called again; run at once; by an empty body; by a
    // code of the upper half; without a definition.
    ".954021A2954F 1D21 954021A4A6954F 1D21 954021954F 1D21 A8",
    ".954121A2A4954F 1D21",
    ".9540A1A2954F 1D21 1DA1",
    ".1D21 1D7E A2",
    // The built-in ones, one of them defined anew; behind them the sets are others.
    ".1D60 0E21A1 1D61 0E21 1D63 0E21 1D6E 21A1 1D6F A1",
    ".954060954F 1D60 A2 1D61 A2 954061A2954F 1D61",
    "1B2B2070 1B6F 6061 6E 6F",
    // Bodies that call others: four deep and five.
    ".954021A2954F 9540221D21954F 9540231D22954F 9540241D23954F 9540251D24954F 1D24 1D25 A4",
    ".954021A21D21954F 1D21 A4 1D21",
    // Bodies that leave something: a repeat, a mark, a size, sets and shifts, half a character, an
    // issue.
    ".9540219843954F 1D21 A2 1D21 0D A2",
    ".95402189954F 1D21 0E41 8A 41 1D21 41",
    ".9540211B29310E954F 1D21 21 0F 1D21 21",
    ".95402124954F 1D21 22 A2",
    ".954021A0954F A2 1D21 A2 1D21",
    ".9540211B2442 212D 954F 1D21 1D21 A2 1D21 0D 1D21",
    ".9540211B2441954F 1D21 1D21",
    // Definitions that are not whole, and what could be one.
    ".954F 954021A2 954F 954F 1D21",
    "9542A2 95 40 21 A2",
    "95",
    "9541",
    ".95409A954F954F 1D1A",
    // Marks and what comes behind them.
    "A2 212D A4 212E 3021 212F 0D 2130 20 2131",
    "212D 2132 227E 9843 A2 212D 2921 212D",
    "1B24 2A 42 A1AD A1AE B0A1 A1AF",
    "1B24 29 39 1B7E A1AD A1AE B0A1 A1AF0D",
    "212D 9D 1B 212E 1B7FA2",
    // Issues before and behind, private-use characters, placeholders, COL and CSI.
    "A0A2A0 7C3A 2921 7A4D A2A0 7C3A A0",
    "98437C3A 212D7C3A 7C3A",
    "9B303B3061A2 9BA2 9B30",
    "9020 41A2 9048 A2 9220",
];

/// All of them, marks that wait, and the corners of decoding.
pub fn all() -> Vec<Vec<u8>> {
    [own(), inputs::every_corner()].concat()
}

/// The same without those of decoding.
pub fn own() -> Vec<Vec<u8>> {
    let corners = CORNERS.iter().map(|digits| bytes(digits));
    corners.chain(waiting()).chain(from_bodies()).collect()
}

/// One of decode's, or, now and then, one with many macros or with much that waits.
pub fn random(random: &mut Random, titles: &[Vec<u8>]) -> Vec<u8> {
    match random.below(8) {
        0 => Writer::new(random).of_macros(),
        1 => Writer::new(random).that_wait(),
        _ => inputs::random(random, titles),
    }
}

/// The same with at most 200 bytes.
pub fn short(random: &mut Random, titles: &[Vec<u8>]) -> Vec<u8> {
    let mut input = self::random(random, titles);
    input.truncate(200);
    input
}

/// How many marks wait: none, few, as many as a bookmark holds, more.
pub const COUNTS: [usize; 7] = [0, 1, 2, 15, 16, 17, 40];

/// So many marks, the seven in turn, in GL's form.
pub fn marks(count: usize) -> Vec<u8> {
    let all = MARKS.iter().cycle().take(count);
    all.flat_map(|&(row, cell, _)| [row + 0x20, cell + 0x20]).collect()
}

/// A kana, marks, and a character, a repeated one, a placeholder, a newline or nothing behind them.
fn waiting() -> impl Iterator<Item = Vec<u8>> {
    let behind: [&[u8]; 6] = [&[0xA4], &[0x98, 0x42, 0xA4], &[0x29, 0x21], &[0x0D], &[0x20], &[]];
    let with =
        move |behind: &[u8]| COUNTS.map(|count| [&[0xA2], &marks(count)[..], behind].concat());
    behind.into_iter().flat_map(with)
}

/// Marks of a body that is called twice, then a kana, a newline or nothing.
fn from_bodies() -> impl Iterator<Item = Vec<u8>> {
    let behind: [&[u8]; 3] = [&[0xA4], &[0x0D, 0xA4], &[]];
    let with = |behind: &[u8]| {
        [1, 8, 9, 16, 17].map(|count| {
            let body = [&[0x95, 0x40, 0x21], &marks(count)[..], &[0x95, 0x4F]].concat();
            [&body, &bytes(CALLS)[..], &[0xA2, 0x1D, 0x21, 0x1D, 0x21], behind].concat()
        })
    };
    behind.into_iter().flat_map(with)
}

/// The bytes of digits among which may be spaces, and a dot at the beginning.
fn bytes(digits: &str) -> Vec<u8> {
    let digits = digits.replace('.', CALLS).replace(' ', "");
    let mut bytes = Vec::new();
    hex::parse(&mut bytes, &digits).expect("pairs of digits");
    bytes
}
