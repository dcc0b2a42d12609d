//! Rooms for the last reading.

use super::Holder;
use super::hold::COUNTS;
use crate::call::{Call, Rooms};
use crate::difference::Held;
use crate::model::ISSUE;
use crate::random::Random;

/// Beyond what is needed, with a remainder of the issue buffer.
pub fn ample(holder: &Holder, random: &mut Random) -> Rooms {
    let Rooms { text, issues } = Rooms::exact(holder.reading());
    Rooms { text: text + random.below(40), issues: issues + random.below(3 * ISSUE) }
}

/// `arib_decode` in exact rooms and with one byte or one issue less; with the greatest remainder of
/// the issue buffer; with half the text; with one number less. For two issues a number less is
/// nine, of which four are a remainder. Then `arib_key`, and each number of counts.
pub fn all_rooms(holder: &mut Holder, call: Call) -> Held {
    let Rooms { text, issues } = Rooms::exact(holder.reading());
    let rooms = |text, issues| Rooms { text, issues };
    holder.exact(call)?;
    holder.run(call, rooms(text + 1, issues + ISSUE - 1))?;
    holder.run(call, rooms(text, issues + 2 * ISSUE - 1))?;
    if text > 0 {
        holder.run(call, rooms(text / 2, issues + ISSUE))?;
    }
    if issues > 0 {
        holder.run(call, rooms(text, issues - 1))?;
        holder.run(call, rooms(text + 3, issues - ISSUE))?;
    }
    if text > 0 && issues > 0 {
        holder.run(call, rooms(text - 1, issues - 1))?;
    }
    key_rooms(holder, call)?;
    count_rooms(holder, call)
}

/// `arib_key` in a buffer for the text before removal: one byte less, exactly full, with more.
pub fn key_rooms(holder: &mut Holder, call: Call) -> Held {
    let text = holder.reading().text.len();
    let less = text.checked_sub(1).into_iter();
    less.chain([text, text + 5]).try_for_each(|room| holder.key(call, room))
}

/// `arib_decode` in exact rooms, `arib_clean` and `arib_measure` with each number of counts.
pub fn count_rooms(holder: &mut Holder, call: Call) -> Held {
    COUNTS.into_iter().try_for_each(|room| {
        holder.counted(call, room)?;
        holder.ask(call, room)
    })
}
