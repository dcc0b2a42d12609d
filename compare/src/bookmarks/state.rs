//! Bookmarks that no setting made: any numbers that a reading of the input could have.

use crate::bookmark::{
    Bookmark, CHARGE, COUNT, GL, GR, ISSUES, LENGTHS, MARKS, NARROW, NUMBERS, OFFSET, PLACE,
    REPEAT, SETS, STARTS, TEXT,
};
use crate::model::tables;
use crate::random::Random;

/// How many macro codes there are.
const CODES: usize = LENGTHS - STARTS;

/// A bookmark with any place, sets, elements, size, repeat, marks, bodies, charge and counts.
pub fn any(random: &mut Random, input: &[u8]) -> Bookmark {
    let mut bookmark = [0; NUMBERS];
    let mut below = |bound: usize| random.below(bound) as u32;
    (bookmark[0], bookmark[PLACE]) = (1, below(input.len() + 1));
    bookmark[SETS..GL].fill_with(|| below(32));
    (bookmark[GL], bookmark[GR], bookmark[NARROW]) = (below(4), below(4), below(2));
    bookmark[REPEAT] = below(2) * below(64);
    (bookmark[COUNT], bookmark[OFFSET]) = (below(17), below(input.len() + 1));
    let count = bookmark[COUNT] as usize;
    bookmark[MARKS..][..count]
        .fill_with(|| tables::MARKS[below(tables::MARKS.len()) as usize].2.into());
    let budget = 64 * input.len() + 4_096;
    bookmark[CHARGE] = [0, below(budget + 1), budget as u32 - below(40)][below(3) as usize];
    bookmark[TEXT] = [0, below(200), below(1 << 31), i32::MAX as u32][below(4) as usize];
    bookmark[ISSUES] = below(100);
    bodies(random, input, &mut bookmark);
    bookmark
}

/// Bodies of the codes that inputs call, and of some others, anywhere in the input, without the
/// bytes that end one.
fn bodies(random: &mut Random, input: &[u8], bookmark: &mut Bookmark) {
    let any = random.below(CODES);
    for code in [0x21, 0x22, 0x23, 0x24, 0x60, 0x61, any] {
        if random.once_in(3) {
            continue;
        }
        let start = random.range(0, input.len());
        let rest = &input[start..];
        let end = rest.windows(2).position(|pair| pair == [0x95, 0x4F]).map(|end| end + 1);
        let length = random.range(0, end.unwrap_or(rest.len()));
        (bookmark[STARTS + code], bookmark[LENGTHS + code]) = (start as u32 + 1, length as u32);
    }
}
