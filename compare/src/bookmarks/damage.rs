//! Numbers in the place of those of a bookmark.

use crate::bookmark::{
    Bookmark, CHARGE, COUNT, GL, ISSUES, LENGTHS, MARKS, NARROW, NUMBERS, OFFSET, PLACE, REPEAT,
    SETS, STARTS, TEXT,
};
use crate::model::tables;
use crate::random::Random;

/// Numbers far from any limit, and at those of 32 bits.
const FAR: [u32; 6] = [255, 256, 65_535, 65_536, i32::MAX as u32, u32::MAX];

/// What a number of this index could be instead, over an input of this length: 0 and 1, one less
/// and one more, its limit and what is beside it, far ones; of the marks each of the seven and what
/// is beside them.
pub fn values(bookmark: &Bookmark, index: usize, length: usize) -> Vec<u32> {
    let own = bookmark[index];
    let limits = limits(bookmark, index, length as u32);
    let around = |n: u32| [n.wrapping_sub(1), n, n.wrapping_add(1)];
    let mut all = [0, 1, own.wrapping_sub(1), own.wrapping_add(1)].to_vec();
    all.extend(limits.into_iter().flat_map(around));
    all.extend(FAR);
    all.sort();
    all.dedup();
    all
}

/// The greatest numbers that it may be, or the only ones.
fn limits(bookmark: &Bookmark, index: usize, length: u32) -> Vec<u32> {
    let own = |at: usize| bookmark[at];
    match index {
        0 | NARROW => vec![1],
        PLACE | OFFSET => vec![length],
        SETS..GL => vec![15, 31],
        GL..NARROW => vec![3],
        REPEAT => vec![63],
        COUNT => vec![16],
        MARKS..STARTS => tables::MARKS.map(|(_, _, mark)| mark.into()).to_vec(),
        STARTS..LENGTHS => {
            let body = own(index + LENGTHS - STARTS);
            vec![length, (length + 1).saturating_sub(body)]
        }
        LENGTHS..CHARGE => {
            let start = own(index - (LENGTHS - STARTS)).saturating_sub(1);
            vec![length, length.saturating_sub(start)]
        }
        CHARGE => vec![64 * length + 4_096],
        TEXT | ISSUES => vec![i32::MAX as u32, length],
        _ => unreachable!("{NUMBERS} numbers"),
    }
}

/// Some numbers of a bookmark replaced: by such as are near, or by any; one of them, a few or many.
pub fn some(random: &mut Random, bookmark: &mut Bookmark, length: usize) {
    for _ in 0..random.one_of(&[1, 1, 2, 3, 10, 60]) {
        let index = index(random);
        let values = values(bookmark, index, length);
        bookmark[index] = match random.below(8) {
            0 => random.number() as u32,
            1 | 2 => random.below(length + 2) as u32,
            _ => random.one_of(&values),
        };
    }
}

/// One of the numbers: mostly of those that are no macro's, often of a macro that inputs define.
fn index(random: &mut Random) -> usize {
    let code = random.one_of(&[0x21, 0x22, 0x23, 0x60, 0x61]);
    match random.below(10) {
        0 => random.below(NUMBERS),
        1 | 2 => STARTS + code,
        3 | 4 => LENGTHS + code,
        5 => random.range(CHARGE, ISSUES),
        _ => random.range(PLACE, STARTS - 1),
    }
}
