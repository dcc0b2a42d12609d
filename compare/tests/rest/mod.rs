//! A file of vectors, read from its beginning to its end.

/// What is not yet read.
pub struct Rest<'a>(pub &'a [u8]);

impl<'a> Rest<'a> {
    pub fn bytes(&mut self, length: u32) -> &'a [u8] {
        let (bytes, rest) = self.0.split_at(length as usize);
        self.0 = rest;
        bytes
    }

    pub fn number(&mut self) -> u32 {
        u32::from_be_bytes(self.bytes(4).try_into().unwrap())
    }

    pub fn numbers<const N: usize>(&mut self) -> [u32; N] {
        std::array::from_fn(|_| self.number())
    }
}
