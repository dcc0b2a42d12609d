//! Graphic sets by 01's numbers (000: sets.rs).

/// A set's number: 0 to 14 in the order of `GraphicSet`, Macro 15, Drcs(n) 16 + n.
pub type Set = u32;

pub const KANJI: Set = 0;
pub const ALPHANUMERIC: Set = 1;
pub const HIRAGANA: Set = 2;
pub const KATAKANA: Set = 3;
pub const MOSAIC_A: Set = 4;
pub const MOSAIC_D: Set = 7;
pub const PROPORTIONAL_ALPHANUMERIC: Set = 8;
pub const PROPORTIONAL_HIRAGANA: Set = 9;
pub const PROPORTIONAL_KATAKANA: Set = 10;
pub const JIS_X0201_KATAKANA: Set = 11;
pub const PLANE_1: Set = 12;
pub const PLANE_2: Set = 13;
pub const ADDITIONAL: Set = 14;
pub const MACRO: Set = 15;
pub const DRCS_0: Set = 16;
pub const LAST: Set = 31;

const ESC: u8 = 0x1B;

/// The sets of G0 to G3 at the start; GL is G0 and GR is G2.
pub fn at_start(caption: bool) -> [Set; 4] {
    [KANJI, ALPHANUMERIC, HIRAGANA, if caption { MACRO } else { KATAKANA }]
}

/// Whether a character of the set has two bytes.
pub fn two_bytes(set: Set) -> bool {
    matches!(set, KANJI | PLANE_1 | PLANE_2 | ADDITIONAL | DRCS_0)
}

/// The set of a final byte, in each of the four forms (Table 7-3).
pub fn designated(two_bytes: bool, drcs: bool, last: u8) -> Option<Set> {
    let last = Set::from(last);
    let set = match (two_bytes, drcs, last) {
        (false, false, 0x30 | 0x31) => last - 0x30 + HIRAGANA,
        (false, false, 0x32..=0x35) => last - 0x32 + MOSAIC_A,
        (false, false, 0x36..=0x38) => last - 0x36 + PROPORTIONAL_ALPHANUMERIC,
        (false, false, 0x49) => JIS_X0201_KATAKANA,
        (false, false, 0x4A) => ALPHANUMERIC,
        (true, false, 0x39..=0x3B) => last - 0x39 + PLANE_1,
        (true, false, 0x42) => KANJI,
        (false, true, 0x41..=0x4F) => last - 0x40 + DRCS_0,
        (false, true, 0x70) => MACRO,
        (true, true, 0x40) => DRCS_0,
        _ => return None,
    };
    Some(set)
}

/// How many bytes the designation of a set to G`element` has (Table 7-2).
pub fn designation_length(set: Set, element: usize) -> usize {
    let drcs = set >= MACRO;
    let named = !two_bytes(set) || element != 0 || drcs;
    2 + usize::from(two_bytes(set)) + usize::from(named) + usize::from(drcs)
}

/// The designation of a set to G`element` (Table 7-2): 24 for two bytes, the element except of two
/// bytes in G0, 20 in the DRCS form, and the final byte that reading takes for the set.
pub fn designation(set: Set, element: usize) -> Vec<u8> {
    let (two_bytes, drcs) = (two_bytes(set), set >= MACRO);
    let last = (0..=0x7E).find(|&last| designated(two_bytes, drcs, last) == Some(set));
    let mut bytes = vec![ESC];
    bytes.extend(two_bytes.then_some(0x24));
    bytes.extend((!two_bytes || element != 0 || drcs).then_some(0x28 + element as u8));
    bytes.extend(drcs.then_some(0x20));
    bytes.extend(last);
    bytes
}

/// The locking shift of G`element` to GL (Table 7-1).
pub fn locking_gl(element: usize) -> &'static [u8] {
    [&[0x0F][..], &[0x0E], &[ESC, 0x6E], &[ESC, 0x6F]][element]
}

/// The locking shift of G1, G2 or G3 to GR.
pub fn locking_gr(element: usize) -> &'static [u8] {
    [&[ESC, 0x7E], &[ESC, 0x7D], &[ESC, 0x7C]][element - 1]
}

/// The single shift of G2 or G3.
pub fn single(element: usize) -> &'static [u8] {
    [&[0x19], &[0x1D]][element - 2]
}
