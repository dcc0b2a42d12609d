//! Buffers to lend: filled before a call, every element looked at after it.

use std::fmt::Debug;

/// Elements of pattern on both sides of what is lent. Odd, so that a text begins at an odd
/// address.
const BESIDE: usize = 13;

/// Bytes and numbers.
pub trait Element: Copy + PartialEq + Default + Debug {
    const PATTERN: Self;
}

impl Element for u8 {
    const PATTERN: u8 = 0xA5;
}

impl Element for u16 {
    const PATTERN: u16 = u16::from_ne_bytes([u8::PATTERN; 2]);
}

impl Element for u32 {
    const PATTERN: u32 = u32::from_ne_bytes([u8::PATTERN; 4]);
}

impl Element for usize {
    const PATTERN: usize = usize::MAX;
}

/// A buffer that is used again from call to call.
#[derive(Default)]
pub struct Buffer<T> {
    elements: Vec<T>,
    room: usize,
    /// Whether what is lent is allocated anew for each call, with nothing beside it.
    alone: bool,
}

impl<T: Element> Buffer<T> {
    /// One whose elements stand alone in their allocation, so that memcheck sees what is read or
    /// written beside them.
    pub fn alone() -> Self {
        Buffer { elements: Vec::new(), room: 0, alone: true }
    }

    /// So much room, filled with the pattern.
    pub fn lend(&mut self, room: usize) -> &mut [T] {
        self.room = room;
        if self.alone {
            self.elements = vec![T::PATTERN; room];
        } else {
            self.elements.clear();
            self.elements.resize(room + 2 * BESIDE, T::PATTERN);
        }
        let beside = self.beside();
        &mut self.elements[beside..][..room]
    }

    /// A copy of these.
    pub fn lend_copy(&mut self, of: &[T]) -> &mut [T] {
        let lent = self.lend(of.len());
        lent.copy_from_slice(of);
        lent
    }

    /// What was lent.
    pub fn lent(&self) -> &[T] {
        &self.elements[self.beside()..][..self.room]
    }

    /// The first place that is not the result, then zeros to the room's end, with the pattern
    /// whole on both sides.
    pub fn fault(&self, name: &str, result: &[T]) -> Option<String> {
        let (before, rest) = self.elements.split_at(self.beside());
        let (lent, after) = rest.split_at(self.room);
        let (written, unused) = lent.split_at(result.len());
        let is_zero = |unused: &[T]| unused.iter().all(|&n| n == T::default());
        if !before.iter().chain(after).all(|&n| n == T::PATTERN) {
            return Some(format!("a write beside the buffer: {name}"));
        }
        if written == result && is_zero(unused) {
            return None;
        }
        let expected = |i| result.get(i).copied().unwrap_or_default();
        let first = (0..self.room).find(|&i| lent[i] != expected(i))?;
        Some(format!("{name} {first} is {:X?}, expected {:X?}", lent[first], expected(first)))
    }

    /// How many elements stand on either side.
    fn beside(&self) -> usize {
        if self.alone { 0 } else { BESIDE }
    }
}

/// In what a call's number and counts are not as expected, if in anything.
pub fn answer_fault(
    (given, number): (u32, u32),
    counts: &[usize],
    expected: &[usize],
) -> Option<String> {
    if given != number {
        return Some(format!("refusal {given}, expected {number}"));
    }
    (counts != expected).then(|| format!("counts {counts:?}, expected {expected:?}"))
}
