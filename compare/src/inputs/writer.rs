//! Bytes of an input, put down piece by piece.

use crate::random::Random;

pub struct Writer {
    pub(super) random: Random,
    out: Vec<u8>,
    /// How many macro definitions are being written.
    pub(super) depth: u32,
}

impl Writer {
    /// A writer with numbers of its own, drawn from `random`.
    pub fn new(random: &mut Random) -> Self {
        Writer { random: Random::new(random.number(), 0), out: Vec::new(), depth: 0 }
    }

    pub fn done(self) -> Vec<u8> {
        self.out
    }

    pub fn len(&self) -> usize {
        self.out.len()
    }

    pub fn is_empty(&self) -> bool {
        self.out.is_empty()
    }

    pub fn put(&mut self, bytes: &[u8]) {
        self.out.extend_from_slice(bytes);
    }

    /// Pieces until `length` bytes stand there.
    pub fn pieces(&mut self, length: usize) {
        while self.len() < length {
            self.piece();
        }
    }

    /// `95 40 code`, what `body` writes, `95 4F`; with 41 in the place of 40 it is run at once.
    pub fn definition(&mut self, run: bool, code: u8, body: impl FnOnce(&mut Self)) {
        self.put(&[0x95, 0x40 + u8::from(run), code]);
        self.depth += 1;
        body(self);
        self.depth -= 1;
        self.put(&[0x95, 0x4F]);
    }

    /// Macro in G3, and G3 in GL: each byte from 21 to 7E is then a call.
    pub fn calls_in_gl(&mut self) {
        self.put(&[0x1B, 0x2B, 0x20, 0x70, 0x1B, 0x6F]);
    }
}
