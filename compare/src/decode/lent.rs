//! Text, issues and counts to lend.

use crate::call::{Answer, Rooms, numbered};
use crate::difference::digits;
use crate::lent::{Buffer, answer_fault};
use crate::model::{ISSUE, Reading};
use crate::subject::Lent;

/// How many counts `arib_decode` leaves, and the most that are lent: two more than any call leaves.
pub const DECODED: usize = 5;
pub const AMPLE: usize = DECODED + 2;

/// Buffers that are used again from call to call.
#[derive(Default)]
pub struct Buffers {
    text: Buffer<u8>,
    issues: Buffer<u32>,
    counts: [usize; AMPLE],
    /// How many of the counts were lent.
    room: usize,
}

impl Buffers {
    /// Buffers of these lengths, filled with the pattern, and so many counts.
    pub fn lend(&mut self, rooms: Rooms, counts: usize) -> Lent<'_> {
        (self.counts, self.room) = ([usize::MAX; AMPLE], counts);
        Lent {
            text: self.text.lend(rooms.text),
            issues: self.issues.lend(rooms.issues),
            counts: &mut self.counts[..counts],
        }
    }

    /// So many counts, and no buffers.
    pub fn lend_counts(&mut self, counts: usize) -> &mut [usize] {
        self.lend(Rooms::default(), counts).counts
    }

    /// The first thing in which the buffers are not as the answer says, if any.
    pub fn fault(&self, given: u32, answer: Answer<Reading>) -> Option<String> {
        let nothing = Reading::default();
        let (refusal, reading) = numbered(answer, &nothing);
        self.counts_fault((given, refusal.number), &reading.counts())
            .or_else(|| self.text.fault("text byte", &reading.text))
            .or_else(|| self.issues.fault("issue number", reading.issues.as_flattened()))
    }

    /// The same of a key in the place of the text.
    pub fn key_fault(&self, numbers: (u32, u32), key: &[u8], charge: usize) -> Option<String> {
        self.counts_fault(numbers, &[0, key.len(), charge])
            .or_else(|| self.text.fault("text byte", key))
    }

    /// The same of the counts alone: those that do not fit are not written, and what is behind them
    /// stays.
    pub fn counts_fault(&self, numbers: (u32, u32), counts: &[usize]) -> Option<String> {
        let mut expected = [usize::MAX; AMPLE];
        expected[..self.room].iter_mut().zip(counts).for_each(|(count, &n)| *count = n);
        answer_fault(numbers, &self.counts, &expected)
    }

    /// What the call left, in words.
    pub fn words(&self, given: u32) -> String {
        let [place, text, count, charge, private_use, ..] = self.counts;
        format!(
            "refusal {given} place {place} text {text} issues {count} charged {charge} \
             private-use {private_use}: {}{}",
            digits(self.text.lent()),
            issues(self.issues.lent())
        )
    }

    /// The same of a key.
    pub fn key_words(&self, given: u32) -> String {
        let ([place, length, charge, ..], key) = (self.counts, digits(self.text.lent()));
        format!("refusal {given} place {place} length {length} charged {charge}: {key}")
    }
}

/// Each issue's numbers.
pub fn issues(numbers: &[u32]) -> String {
    let issue = |n: &[u32]| n.iter().map(u32::to_string).collect::<Vec<_>>().join(",");
    numbers.chunks(ISSUE).map(|n| format!(" {}", issue(n))).collect()
}
