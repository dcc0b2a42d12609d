//! What a whole control or escape does.

use super::{Machine, sets};

impl<'a> Machine<'a> {
    /// `code` is the control with its parameters, at `place` of the input.
    pub fn effect(&mut self, code: &'a [u8], place: usize, offset: u32) {
        match code[0] {
            0x0D => self.newline(),
            0x0E => self.gl = 1,
            0x0F => self.gl = 0,
            0x1B => self.escape(code, place, offset),
            0x20 => self.emit(if self.narrow() { ' ' } else { '\u{3000}' }),
            0x88 | 0x89 => self.narrow_size = true,
            0x8A => self.narrow_size = false,
            0x8B => self.narrow_size = code[1] == 0x60,
            0x95 if code[1] != 0x4F => self.define(code, place, offset),
            0x98 => self.repeat(code[1] & 0x3F, offset),
            _ => {}
        }
    }

    /// RPC: count 0 is only reported.
    fn repeat(&mut self, count: u8, offset: u32) {
        self.repeat = Some(count.into()).filter(|&n| n > 0);
        if count == 0 {
            self.report(offset, 13, 0, 0);
        }
    }

    fn escape(&mut self, code: &'a [u8], place: usize, offset: u32) {
        if !self.locking_shift(&code[1..]) && !self.designate(&code[1..]) {
            self.report(offset, 1, place as u32, code.len() as u32);
        }
    }

    /// LS2, LS3, LS1R, LS2R, LS3R (Table 7-1).
    fn locking_shift(&mut self, code: &[u8]) -> bool {
        match code {
            [0x6E] => self.gl = 2,
            [0x6F] => self.gl = 3,
            [0x7C] => self.gr = 3,
            [0x7D] => self.gr = 2,
            [0x7E] => self.gr = 1,
            _ => return false,
        }
        true
    }

    /// Designations (Table 7-2): 24 for two bytes, the element, 20 for DRCS, the final byte.
    /// A plain two-byte set goes to G0 without the element, and only so.
    fn designate(&mut self, code: &[u8]) -> bool {
        let Some((&last, form)) = code.split_last() else { return false };
        let (two_bytes, form) = strip(form, 0x24);
        let (element, form) = match form {
            [element @ 0x28..=0x2B, form @ ..] => (Some(usize::from(element - 0x28)), form),
            _ => (None, form),
        };
        let (drcs, form) = strip(form, 0x20);
        let element = match element {
            Some(0) if two_bytes && !drcs => return false,
            Some(element) => element,
            None if two_bytes && !drcs => 0,
            None => return false,
        };
        match sets::designated(two_bytes, drcs, last) {
            Some(set) if form.is_empty() => {
                self.elements[element] = set;
                true
            }
            _ => false,
        }
    }
}

/// Whether the form begins with the byte, and what follows.
fn strip(form: &[u8], byte: u8) -> (bool, &[u8]) {
    match form {
        [first, form @ ..] if *first == byte => (true, form),
        _ => (false, form),
    }
}
