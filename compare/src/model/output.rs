//! What is written: characters, repeats, marks, issues.

use super::{Machine, tables};

impl Machine<'_> {
    pub fn report(&mut self, offset: u32, kind: u32, first: u32, second: u32) {
        let position = self.reading.text.len() as u32;
        self.reading.issues.push([offset, kind, first, second, position]);
    }

    /// A character read from a cell: marks wait, others are emitted.
    pub fn put(&mut self, c: char, offset: u32) {
        if tables::is_mark(c) {
            self.marks.push((c, offset));
        } else {
            self.emit(c);
        }
    }

    /// An emitted character: as often as a waiting repeat says, then the waiting marks.
    pub fn emit(&mut self, c: char) {
        for _ in 0..self.repeat.take().unwrap_or(1) {
            self.write(c);
        }
        self.write_marks();
    }

    /// Marks that found no character.
    pub fn release_marks(&mut self) {
        if let Some(&(_, offset)) = self.marks.first() {
            self.report(offset, 12, 0, 0);
            self.write_marks();
        }
    }

    pub fn newline(&mut self) {
        self.release_marks();
        self.write('\n');
    }

    pub fn narrow(&self) -> bool {
        self.annex_e || self.narrow_size
    }

    fn write_marks(&mut self) {
        for (mark, _) in std::mem::take(&mut self.marks) {
            self.write(mark);
        }
    }

    fn write(&mut self, c: char) {
        self.reading.text.extend_from_slice(c.encode_utf8(&mut [0; 4]).as_bytes());
    }
}
