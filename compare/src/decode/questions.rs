//! What questions 1 to 3 refuse, the last accepted ones, and parts of escapes, which put no
//! question.

use super::rooms::all_rooms;
use super::{Found, Holder, Runs};
use crate::call::{LONGEST, Rooms, under_all};
use crate::cells;
use crate::difference::Held;
use crate::questions::{wrong_cells, wrong_lengths, wrong_options};
use crate::random::Random;

/// Tables, options and lengths, in several rooms. Question 1 comes before the others, question 2
/// before question 3.
pub fn questions(runs: &Runs) -> Found {
    let long = &vec![0xA2; LONGEST + 1][..];
    let one = &long[..1];
    runs.each(1, |holder, _| {
        wrong_cells(&[0x30, 0x21], |call, index| {
            holder.refused(call, Rooms { text: index % 40, issues: index % 9 }, 1)
        })?;
        wrong_lengths(&[(0, one), (2, one), (2, long), (0, long)], |call| {
            holder.refused(call, Rooms { text: 50, issues: 9 }, 1)
        })?;
        wrong_options(&[&[], one, long], |call| {
            holder.refused(call, Rooms { text: 31, issues: 6 }, 2)
        })?;
        too_long(holder, long)
    })
}

/// 65,536 bytes are refused before the text is, 65,535 are not.
fn too_long(holder: &mut Holder, long: &[u8]) -> Held {
    for call in under_all(cells::rusts(), long) {
        for rooms in [Rooms { text: 0, issues: 0 }, Rooms { text: 400_000, issues: 21 }] {
            holder.refused(call, rooms, 3)?;
        }
    }
    for call in under_all(cells::rusts(), &long[..LONGEST]) {
        holder.read_both(call)?;
        all_rooms(holder, call)?;
    }
    Ok(())
}

/// Parts asked for, within the input and beyond it.
pub fn escapes(runs: &Runs) -> Found {
    let input = vec![0x1B; LONGEST + 10];
    let far = [usize::MAX, usize::MAX - 1, 1 << 32, (1 << 32) + 1, 1 << 63];
    runs.each(20_000, |holder, index| {
        let mut random = Random::new(runs.seed ^ 0xE5C, index);
        let length = random.one_of(&[0, 1, 2, 40, LONGEST, input.len()]);
        let mut number = || match random.below(6) {
            0 => random.one_of(&far),
            1 => length,
            2 => length + 1,
            _ => random.below(length + 3),
        };
        let (start, count) = (number(), number());
        let inside = start <= length && count <= length - start;
        holder.part(&input[..length], start, count, if inside { [start, count] } else { [0, 0] })
    })
}
