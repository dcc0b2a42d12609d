//! Calls with each number of counts: `arib_decode`, and `arib_clean` and `arib_measure`, which are
//! lent nothing else.

use super::{Holder, words};
use crate::call::{Call, Rooms};
use crate::decode::lent::{AMPLE, DECODED};
use crate::difference::{Held, held};

/// How many counts are lent: fewer than a call leaves, as many, and more.
pub const COUNTS: [usize; 7] = [0, 1, 2, 3, 4, DECODED, AMPLE];

impl Holder<'_> {
    /// `arib_decode` with so many counts, in exact rooms, after a reading.
    pub fn counted(&mut self, call: Call, room: usize) -> Held {
        self.decode_with(call, Rooms::exact(&self.reading), room, 0)
    }

    /// `arib_clean` and `arib_measure` with so many counts, after a reading.
    pub fn ask(&mut self, call: Call, room: usize) -> Held {
        self.clean(call, room)?;
        self.measure(call, room)
    }

    /// Both refuse with this number.
    pub(super) fn ask_refused(&mut self, call: Call, room: usize, number: u32) -> Held {
        self.clean_answer(call, room, Err(number))?;
        self.measure_answer(call, room, Err(number))
    }

    /// A call of this name has given the first of the numbers, and the second is expected; it has
    /// left these counts, as many as there was room for.
    pub(super) fn counts_held(
        &self,
        name: &str,
        call: Call,
        room: usize,
        numbers: (u32, u32),
        counts: &[usize],
    ) -> Held {
        let fault = self.buffers.counts_fault(numbers, counts);
        held(fault.map(|what| format!("{name}: {what}")), &call, |difference| {
            let difference = difference.line("counts lent", room);
            if call.questions() != 0 {
                return difference;
            }
            difference.line("model", words(&self.reading))
        })
    }
}
