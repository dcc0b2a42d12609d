//! What questions 1 to 3 refuse, and the longest text that they let through.

use super::rooms::in_all;
use super::{Found, Holder, Runs};
use crate::call::{Call, CodingRooms, LONGEST_TEXT, under_all};
use crate::cells;
use crate::difference::Held;
use crate::questions::{wrong_cells, wrong_lengths, wrong_options};

/// Rooms of many sizes, exact ones for the text among them.
const ROOMS: [CodingRooms; 4] = [
    CodingRooms { store: 0, coding: 0 },
    CodingRooms { store: 3, coding: 1 },
    CodingRooms { store: 8, coding: 2 },
    CodingRooms { store: 501, coding: 70 },
];

/// Tables, options and lengths, in several rooms. Question 1 comes before the others, question 2
/// before questions 3 to 6.
pub fn questions(runs: &Runs) -> Found {
    let long = "あ".repeat(LONGEST_TEXT).into_bytes();
    let (whole, cut) = (&long[..3], &long[..2]);
    runs.each(1, |holder, _| {
        wrong_cells("亜".as_bytes(), |call, index| {
            holder.refused(call, ROOMS[index % ROOMS.len()], 1)
        })?;
        let given = [(0, whole), (2, cut), (2, &long), (0, &long)];
        wrong_lengths(&given, |call| in_rooms(holder, call, 1))?;
        let inputs = [&[], whole, cut, b"\xCC\x81", b"\x01", &long];
        wrong_options(&inputs, |call| in_rooms(holder, call, 2))?;
        too_long(holder, &long)
    })
}

/// Refused with this number in all those rooms.
fn in_rooms(holder: &mut Holder, call: Call, number: u32) -> Held {
    ROOMS.into_iter().try_for_each(|rooms| holder.refused(call, rooms, number))
}

/// 7,282 bytes are refused before they are looked at, 7,281 are not.
fn too_long(holder: &mut Holder, long: &[u8]) -> Held {
    for text in [&long[..LONGEST_TEXT + 1], long, &[0xFF; 65_536]] {
        for call in under_all(cells::rusts(), text) {
            in_rooms(holder, call, 3)?;
        }
    }
    for call in under_all(cells::rusts(), &long[..LONGEST_TEXT]) {
        holder.code_both(call)?;
        in_all(holder, call)?;
    }
    Ok(())
}
