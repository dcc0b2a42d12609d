//! Macros that call macros until the budget is spent.

use super::Writer;
use crate::random::Random;

/// A chain of macros from 21 on, each of which calls the one before it.
const CHAIN: [u8; 5] = [0x21, 0x22, 0x23, 0x24, 0x25];

/// A body with 92-26, a private-use character: Kanji in GR, since GL calls macros.
pub const PRIVATE_USE: [u8; 8] = [0x1B, 0x24, 0x2A, 0x42, 0x1B, 0x7D, 0xFC, 0xBA];

impl Writer {
    /// The first macro's body is short, each other calls the one before it several times, one
    /// may call itself; then calls up to about `length` bytes.
    pub fn bomb(&mut self, length: usize) {
        let innermost = self.random.below(7);
        self.definition(false, CHAIN[0], |body| body.innermost(innermost));
        for codes in CHAIN.windows(2).take(self.random.below(5)) {
            let (callee, own) = (codes[0], codes[1]);
            let times = self.random.one_of(&[1, 2, 8, 16, 40]);
            self.definition(false, own, |body| body.calls(callee, own, times));
        }
        self.calls_in_gl();
        while self.len() < length {
            let code = self.random.one_of(&CHAIN);
            self.put(&[code]);
            if self.random.once_in(12) {
                self.piece();
                self.calls_in_gl();
            }
        }
    }

    /// Nothing, a kana, kana, a mark in GR, a repeated kana, a private-use character in GR, an
    /// unknown escape.
    fn innermost(&mut self, which: usize) {
        match which {
            0 => {}
            1 => self.put(&[0xA2]),
            2 => self.put(&[0xA2; 20]),
            3 => self.put(&[0x1B, 0x24, 0x2A, 0x42, 0x1B, 0x7D, 0xA1, 0xAD]),
            4 => self.put(&[0x98, 0x7F, 0xA2]),
            5 => self.put(&PRIVATE_USE),
            _ => self.put(&[0x1B, 0x24, 0x28, 0x42]),
        }
    }

    fn calls(&mut self, callee: u8, own: u8, times: usize) {
        for _ in 0..times {
            let code = if self.random.once_in(30) { own } else { callee };
            self.put(&[code]);
        }
    }
}

/// A macro of `body` called by each further byte, up to `length` bytes.
pub fn called(body: &[u8], length: usize) -> Vec<u8> {
    chain(&[body], length)
}

/// Macros 21, 22 and so on, of which the last is called by each further byte.
pub fn chain(bodies: &[&[u8]], length: usize) -> Vec<u8> {
    let mut writer = Writer::new(&mut Random::new(0, 0));
    for (code, body) in CHAIN.into_iter().zip(bodies) {
        writer.definition(false, code, |writer| writer.put(body));
    }
    writer.calls_in_gl();
    let mut input = writer.done();
    input.resize(length, CHAIN[bodies.len() - 1]);
    input
}

/// Small inputs whose macros spend the budget: one more body than the budget pays for, a body
/// that takes exactly what remains, a macro that calls itself, five deep.
pub fn small() -> Vec<Vec<u8>> {
    vec![
        chain(&[&[], &[0x21; 40], &[0x22; 40]], 120),
        chain(&[&[0x87], &[0x21; 16], &[0x22; 16]], 90),
        called(&[0x87; 128], 350),
        called(&[0x87; 129], 350),
        called(&[0x21, 0xA2], 30),
        chain(&[&[0xA2], &[0x21], &[0x22], &[0x23], &[0x24]], 50),
    ]
}
