//! Graphic characters of a code element.

use super::sets::{self, Set};
use super::{Machine, tables};

const PLACEHOLDER: char = '\u{FFFD}';

/// Kinds of issues that come with a placeholder.
const UNDEFINED: u32 = 5;
const UNSUPPORTED: u32 = 6;
const DRCS: u32 = 7;

impl<'a> Machine<'a> {
    /// The character with which `rest` begins; gives the bytes used.
    pub fn character(&mut self, rest: &'a [u8], element: usize, offset: u32) -> usize {
        let set = self.elements[element];
        let code = rest[0] & 0x7F;
        if !sets::two_bytes(set) {
            self.one_byte(set, code, offset);
            return 1;
        }
        match rest.get(1) {
            Some(&second) if half(second) == half(rest[0]) => {
                self.two_bytes(set, code, second & 0x7F, offset);
                2
            }
            _ => {
                self.report(offset, 4, 0, 0);
                1
            }
        }
    }

    fn one_byte(&mut self, set: Set, code: u8, offset: u32) {
        let found = match set {
            sets::MACRO => return self.call(code, offset),
            sets::MOSAIC_A..=sets::MOSAIC_D => return self.mosaic(set, code, offset),
            sets::ALPHANUMERIC | sets::PROPORTIONAL_ALPHANUMERIC => {
                tables::alphanumeric(code, self.narrow()).ok_or(UNDEFINED)
            }
            sets::HIRAGANA | sets::PROPORTIONAL_HIRAGANA => tables::hiragana(code).ok_or(UNDEFINED),
            sets::KATAKANA | sets::PROPORTIONAL_KATAKANA => tables::katakana(code).ok_or(UNDEFINED),
            sets::JIS_X0201_KATAKANA => tables::jis_x0201_katakana(code).ok_or(UNDEFINED),
            _ => Err(DRCS),
        };
        self.found(found, set, code.into(), offset);
    }

    fn two_bytes(&mut self, set: Set, first: u8, second: u8, offset: u32) {
        let (row, cell) = (first - 0x20, second - 0x20);
        let kanji = || tables::kanji(self.cells, row, cell);
        let found = match set {
            sets::KANJI => kanji().ok_or(UNDEFINED),
            sets::ADDITIONAL => tables::additional(row, cell).ok_or(UNDEFINED),
            sets::PLANE_1 if row <= 84 => kanji().ok_or(UNSUPPORTED),
            sets::DRCS_0 => Err(DRCS),
            _ => Err(UNSUPPORTED),
        };
        self.found(found, set, u32::from(first) << 8 | u32::from(second), offset);
    }

    /// A character, or an issue and the placeholder. Drcs gives its n.
    fn found(&mut self, found: Result<char, u32>, set: Set, code: u32, offset: u32) {
        match found {
            Ok(c) => self.put(c, offset),
            Err(kind) => {
                let set = if kind == DRCS { set - sets::DRCS_0 } else { set };
                self.report(offset, kind, set, code);
                self.emit(PLACEHOLDER);
            }
        }
    }

    /// A mosaic yields no text and clears a waiting repeat.
    fn mosaic(&mut self, set: Set, code: u8, offset: u32) {
        self.report(offset, 8, set, code.into());
        self.repeat = None;
    }
}

/// GL's half or GR's half, else neither.
fn half(byte: u8) -> Option<u8> {
    match byte {
        0x21..=0x7E | 0xA1..=0xFE => Some(byte & 0x80),
        _ => None,
    }
}
