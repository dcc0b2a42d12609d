//! One call of `arib_measure` held, and `arib_decode` in the rooms that it says.

use super::Holder;
use crate::call::{Call, Rooms};
use crate::difference::Held;
use crate::model::ISSUE;

impl Holder<'_> {
    /// `arib_measure` with so many counts, after a reading.
    pub fn measure(&mut self, call: Call, room: usize) -> Held {
        let [_, sizes @ ..] = self.reading.measured();
        self.measure_answer(call, room, Ok(sizes))
    }

    /// `arib_measure` refuses with this number, or gives bytes of text, issues and charge.
    pub(super) fn measure_answer(
        &mut self,
        call: Call,
        room: usize,
        answer: Result<[usize; 3], u32>,
    ) -> Held {
        let number = answer.err().unwrap_or(0);
        let [text, issues, charge] = answer.unwrap_or_default();
        self.tally.measured[number as usize] += 1;
        let given = self.subject.measure(call, self.buffers.lend_counts(room));
        self.counts_held("measure", call, room, (given, number), &[0, text, issues, charge])
    }

    /// `arib_decode` is given just what `arib_measure` says; one byte less, which is 8; one issue
    /// less, which is 9, whatever the remainder. After a reading.
    pub fn exact(&mut self, call: Call) -> Held {
        let Rooms { text, issues } = Rooms::exact(&self.reading);
        self.decode(call, Rooms { text, issues }, 0)?;
        if text > 0 {
            self.decode(call, Rooms { text: text - 1, issues }, 8)?;
        }
        if issues > 0 {
            let remainder = remainder(call);
            self.tally.remainders[remainder] += 1;
            self.decode(call, Rooms { text, issues: issues - ISSUE + remainder }, 9)?;
        }
        Ok(())
    }
}

/// Goes round from input to input, and from one pair of options to the next.
fn remainder(call: Call) -> usize {
    let bytes = call.input.iter().map(|&byte| usize::from(byte)).sum::<usize>();
    (bytes + 2 * call.initial as usize + call.width as usize) % ISSUE
}
