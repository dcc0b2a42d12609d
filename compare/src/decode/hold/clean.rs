//! One call of `arib_clean` held against a list of issues.

use super::Holder;
use crate::call::Call;
use crate::difference::Held;

impl Holder<'_> {
    /// `arib_clean` with so many counts, after a reading.
    pub fn clean(&mut self, call: Call, room: usize) -> Held {
        self.clean_answer(call, room, Ok(self.reading.issues.is_empty()))
    }

    /// `arib_clean` refuses with this number, or says whether there is no issue.
    pub(super) fn clean_answer(
        &mut self,
        call: Call,
        room: usize,
        answer: Result<bool, u32>,
    ) -> Held {
        let (number, clean) = (answer.err().unwrap_or(0), answer == Ok(true));
        self.tally.asked[number as usize] += 1;
        self.tally.clean += u64::from(clean);
        let given = self.subject.clean(call, self.buffers.lend_counts(room));
        self.counts_held("clean", call, room, (given, number), &[0, clean.into()])
    }
}
