//! One call of `arib_key` held against the last reading.

use super::{DECODED, Holder};
use crate::call::{Call, Rooms};
use crate::difference::{Held, held};
use crate::key;

impl Holder<'_> {
    /// `arib_key` with this room, after a reading.
    pub fn key(&mut self, call: Call, room: usize) -> Held {
        self.key_answer(call, room, key::questions(room, &self.reading))
    }

    /// `arib_key` refuses with this number, or gives the key and the charge where it is 0.
    pub(super) fn key_answer(&mut self, call: Call, room: usize, number: u32) -> Held {
        self.tally.keys[number as usize] += 1;
        let lent = self.buffers.lend(Rooms { text: room, issues: 0 }, DECODED);
        let given = self.subject.key(call, lent.text, lent.counts);
        let (key, charge) = key::of(number, &self.reading);
        let fault = self.buffers.key_fault((given, number), key.as_bytes(), charge);
        held(fault.map(|what| format!("key: {what}")), &call, |difference| {
            difference
                .line("room", room)
                .line("subject", self.buffers.key_words(given))
                .line("key", format!("charged {charge}: {key}"))
        })
    }
}
