//! Macros: definitions, bodies and what they charge.

use super::sets::{self, Set};
use super::{Machine, OPEN, Stretch};

/// The sets of G0 to G2 in the built-in bodies 60 to 6F (Table 7-18). G3 is Macro.
const BUILT_IN: [[Set; 3]; 16] = [
    [sets::KANJI, sets::ALPHANUMERIC, sets::HIRAGANA],
    [sets::KANJI, sets::KATAKANA, sets::HIRAGANA],
    [sets::KANJI, drcs(1), sets::HIRAGANA],
    [sets::MOSAIC_A, mosaic('C'), sets::MOSAIC_D],
    [sets::MOSAIC_A, mosaic('B'), sets::MOSAIC_D],
    [sets::MOSAIC_A, drcs(1), sets::MOSAIC_D],
    [drcs(1), drcs(2), drcs(3)],
    [drcs(4), drcs(5), drcs(6)],
    [drcs(7), drcs(8), drcs(9)],
    [drcs(10), drcs(11), drcs(12)],
    [drcs(13), drcs(14), drcs(15)],
    [sets::KANJI, drcs(2), sets::HIRAGANA],
    [sets::KANJI, drcs(3), sets::HIRAGANA],
    [sets::KANJI, drcs(4), sets::HIRAGANA],
    [sets::KATAKANA, sets::HIRAGANA, sets::ALPHANUMERIC],
    [sets::ALPHANUMERIC, sets::MOSAIC_A, drcs(1)],
];

const fn drcs(n: Set) -> Set {
    sets::DRCS_0 + n
}

const fn mosaic(letter: char) -> Set {
    sets::MOSAIC_A + letter as Set - 'A' as Set
}

impl Machine<'_> {
    /// `95 40 code body 95 4F` defines; with 41 the body is then run.
    pub fn define(&mut self, definition: &[u8], place: usize, offset: u32) {
        let code = definition[2] & 0x7F;
        let end = place + definition.len() - 2;
        self.bodies[usize::from(code)] = Some((place as u32 + 3, end as u32));
        if definition[1] == 0x41 {
            self.call(code, offset);
        }
    }

    /// Runs the code's body: the defined one, else the built-in one.
    pub fn call(&mut self, code: u8, offset: u32) {
        if let Some((start, end)) = self.bodies[usize::from(code)] {
            if self.charge((end - start) as usize, offset) {
                let (at, end) = (start as usize, end as usize);
                self.open[self.depth] = Stretch { at, end, caller: Some(offset) };
                self.depth += 1;
            }
        } else if let 0x60..=0x6F = code {
            self.built_in(BUILT_IN[usize::from(code) - 0x60], offset);
        } else {
            self.report(offset, 9, code.into(), 0);
        }
    }

    /// A built-in body: four designations, LS0, LS2R. It writes and reports nothing, so it is
    /// run at once and never stands open.
    fn built_in(&mut self, [g0, g1, g2]: [Set; 3], offset: u32) {
        let elements = [g0, g1, g2, sets::MACRO];
        let designations = (0..4).map(|n| sets::designation_length(elements[n], n));
        if self.charge(designations.sum::<usize>() + 3, offset) {
            self.elements = elements;
            self.gl = 0;
            self.gr = 2;
        }
    }

    /// Charges a body's length, or reports MacroLimit: fewer than four bodies may be open, and
    /// the length must be within what remains.
    fn charge(&mut self, length: usize, offset: u32) -> bool {
        if self.depth == OPEN || length > self.remaining {
            self.report(offset, 10, 0, 0);
            return false;
        }
        self.remaining -= length;
        self.reading.charge += length;
        true
    }
}
