//! The leaf modules over their whole domains, as one file of numbers.
//!
//! Each number is three bytes, big-endian, enough for any Unicode scalar; number i is at
//! byte 3 × i. The parts stand in the order of `PARTS`, without gaps; README.md has the
//! place of each. "No character" is 0, any other "none" is `NONE`.

use isdb_text::{CharSize, GraphicSet, InitialState, Shift, control, tables};

use crate::{cells, sets};

/// "None" where 0 is an answer.
pub const NONE: u32 = 255;

/// One part of the file.
pub struct Part {
    pub name: &'static str,
    /// How many numbers it has.
    pub count: usize,
    write: fn(&mut Numbers),
}

/// The parts in the order of the file.
pub const PARTS: [Part; 15] = [
    part("kanji", 8_836, |out| cell_table(out, tables::kanji)),
    part("additional_symbols", 8_836, |out| cell_table(out, tables::additional_symbols)),
    part("alphanumeric", 256, |out| one_byte_table(out, tables::alphanumeric)),
    part("hiragana", 256, |out| one_byte_table(out, tables::hiragana)),
    part("katakana", 256, |out| one_byte_table(out, tables::katakana)),
    part("jis_x0201_katakana", 256, |out| one_byte_table(out, tables::jis_x0201_katakana)),
    part("fixed_params", 256, fixed_params),
    part("name", 256 * 6, names),
    part("sets", 32 * 27, all_sets),
    part("from_designation", 4 * 256, from_designation),
    part("shifts", 9 * 4, shifts),
    part("is_narrow", 3 + 256, is_narrow),
    part("initial", 2 * 6, initial),
    part("fullwidth", 0x10000, fullwidth),
    part("is_non_spacing", 0x3000, is_non_spacing),
];

const fn part(name: &'static str, count: usize, write: fn(&mut Numbers)) -> Part {
    Part { name, count, write }
}

/// The whole file.
pub fn file() -> Vec<u8> {
    PARTS.iter().flat_map(Part::bytes).collect()
}

impl Part {
    /// This part's bytes.
    pub fn bytes(&self) -> Vec<u8> {
        let mut out = Numbers(Vec::with_capacity(3 * self.count));
        (self.write)(&mut out);
        out.0
    }
}

struct Numbers(Vec<u8>);

impl Numbers {
    fn put(&mut self, number: u32) {
        let [_, bytes @ ..] = number.to_be_bytes();
        self.0.extend(bytes);
    }

    /// A length, then the bytes and zeros, `room` numbers in all.
    fn put_string(&mut self, bytes: &[u8], room: usize) {
        self.put(bytes.len() as u32);
        let padded = bytes.iter().copied().chain(std::iter::repeat(0));
        padded.take(room).for_each(|b| self.put(b.into()));
    }

    fn put_char(&mut self, c: Option<char>) {
        self.put(c.map_or(0, u32::from));
    }
}

/// Every cell's character.
fn cell_table(out: &mut Numbers, table: fn(u8, u8) -> Option<char>) {
    cells::all().for_each(|(row, cell)| out.put_char(table(row, cell)));
}

/// Every code's character.
fn one_byte_table(out: &mut Numbers, table: fn(u8) -> Option<char>) {
    (0..=255).for_each(|code| out.put_char(table(code)));
}

/// Every code's count of parameters.
fn fixed_params(out: &mut Numbers) {
    (0..=255).for_each(|code| out.put(control::fixed_params(code).map_or(NONE, |n| n as u32)));
}

/// Every code's name, a string of up to five letters; no name has length 0.
fn names(out: &mut Numbers) {
    (0..=255).for_each(|code| out.put_string(control::name(code).unwrap_or("").as_bytes(), 5));
}

/// Each set by number: bytes a character, final byte, DRCS form or not, then its
/// designations to G0 to G3, strings of up to five bytes.
fn all_sets(out: &mut Numbers) {
    for set in sets::all() {
        out.put(set.bytes_per_char() as u32);
        out.put(set.final_byte().into());
        out.put(set.is_drcs_form().into());
        (0..4).for_each(|element| out.put_string(&set.designation(element), 5));
    }
}

/// The set's number for one-byte and two-byte, in each for plain and DRCS form, in each
/// for every final byte.
fn from_designation(out: &mut Numbers) {
    for (two_byte, drcs) in [(false, false), (false, true), (true, false), (true, true)] {
        let set = |f| GraphicSet::from_designation(two_byte, drcs, f);
        (0..=255).for_each(|f| out.put(set(f).map_or(NONE, sets::number)));
    }
}

/// Each shift: its bytes, a string of up to two, and its code element.
fn shifts(out: &mut Numbers) {
    use Shift::*;
    for shift in [Ls0, Ls1, Ls2, Ls3, Ls1r, Ls2r, Ls3r, Ss2, Ss3] {
        out.put_string(shift.bytes(), 2);
        out.put(shift.element().into());
    }
}

/// Small, Middle, Normal, then SZX with every parameter: 1 if narrow.
fn is_narrow(out: &mut Numbers) {
    let sized = (0..=255).map(CharSize::Szx);
    let sizes = [CharSize::Small, CharSize::Middle, CharSize::Normal].into_iter().chain(sized);
    sizes.for_each(|size| out.put(size.is_narrow().into()));
}

/// Si, then Caption: the sets of G0 to G3, and the code elements in GL and GR.
fn initial(out: &mut Numbers) {
    for state in [InitialState::Si, InitialState::Caption] {
        let (gl, gr) = state.invocations();
        state.designations().into_iter().for_each(|set| out.put(sets::number(set)));
        out.put(gl.into());
        out.put(gr.into());
    }
}

/// U+0000 to U+FFFF; 0 for the surrogates, which are no characters.
fn fullwidth(out: &mut Numbers) {
    (0..0x10000).for_each(|c| out.put_char(char::from_u32(c).map(tables::fullwidth)));
}

/// U+0000 to U+2FFF: 1 if it is a mark.
fn is_non_spacing(out: &mut Numbers) {
    let marks = ('\0'..'\u{3000}').map(tables::is_non_spacing);
    marks.for_each(|mark| out.put(mark.into()));
}
