//! Inputs in which much is carried from step to step: macros, and what waits for a character.

use super::Writer;
use crate::model::tables::MARKS;

/// How long they are.
const SHORTEST: usize = 8;
const LONGEST: usize = 60;

impl Writer {
    /// Macro in G3; then mostly definitions, of few codes, and calls.
    pub fn of_macros(mut self) -> Vec<u8> {
        self.put(&[0x1B, 0x2B, 0x20, 0x70]);
        let length = self.random.range(SHORTEST, LONGEST);
        while self.len() < length {
            match self.random.below(6) {
                0 | 1 => self.macro_definition(),
                2 | 3 => self.macro_call(),
                _ => self.piece(),
            }
        }
        self.done()
    }

    /// Mostly marks and repeats, with few characters, so that many wait.
    pub fn that_wait(mut self) -> Vec<u8> {
        let length = self.random.range(SHORTEST, LONGEST);
        while self.len() < length {
            match self.random.below(24) {
                0 => self.piece(),
                1 => self.put(&[0x0D]),
                2 | 3 => self.repeat(),
                4 => self.put(&[0x87]),
                _ => {
                    let (row, cell, _) = self.random.one_of(&MARKS);
                    self.put(&[row + 0x20, cell + 0x20]);
                }
            }
        }
        self.done()
    }
}
