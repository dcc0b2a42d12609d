//! Ways to a character of two bytes.

use super::Writer;

/// Where a set is designated, and how its characters are reached there.
#[derive(Clone, Copy)]
struct Way {
    /// The designation without its final byte.
    designation: &'static [u8],
    /// The element's locking shift.
    locking: &'static [u8],
    /// The single shift before each character.
    single: &'static [u8],
    /// GL's half or GR's.
    half: u8,
}

const G0: &[u8] = &[0x1B, 0x24];
const G1: &[u8] = &[0x1B, 0x24, 0x29];
const G2: &[u8] = &[0x1B, 0x24, 0x2A];
const G3: &[u8] = &[0x1B, 0x24, 0x2B];

/// Each element in GL and in GR, but for G0, which is never in GR; SS2 and SS3 before either half.
const WAYS: [Way; 11] = [
    locked(G0, &[0x0F], 0),
    locked(G1, &[0x0E], 0),
    locked(G2, &[0x1B, 0x6E], 0),
    locked(G3, &[0x1B, 0x6F], 0),
    locked(G1, &[0x1B, 0x7E], 0x80),
    locked(G2, &[0x1B, 0x7D], 0x80),
    locked(G3, &[0x1B, 0x7C], 0x80),
    single(G2, &[0x19], 0),
    single(G2, &[0x19], 0x80),
    single(G3, &[0x1D], 0),
    single(G3, &[0x1D], 0x80),
];

const fn locked(designation: &'static [u8], locking: &'static [u8], half: u8) -> Way {
    Way { designation, locking, single: &[], half }
}

const fn single(designation: &'static [u8], single: &'static [u8], half: u8) -> Way {
    Way { designation, locking: &[], single, half }
}

/// The final bytes of the sets: Kanji, JIS compatible Kanji plane 1, additional symbols.
const SETS: [u8; 3] = [0x42, 0x39, 0x3B];

/// What stands before each character: nothing, RPC, or a mark of the same set, which waits for it.
#[derive(Clone, Copy)]
enum Before {
    Nothing,
    Repeat,
    Mark,
}

const BEFORE: [Before; 3] = [Before::Nothing, Before::Repeat, Before::Mark];

/// How many ways there are, with each set and with each thing before the characters.
const COUNT: usize = WAYS.len() * SETS.len() * BEFORE.len();

/// These codes, in GL's form, by the way of this index: all come round, since 11 and 9 have no
/// common factor.
pub fn nth(index: usize, codes: &[[u8; 2]]) -> Vec<u8> {
    let (way, set) = (WAYS[index % WAYS.len()], SETS[index % SETS.len()]);
    let mut out = [way.designation, &[set], way.locking].concat();
    for &code in codes {
        match BEFORE[index / SETS.len() % BEFORE.len()] {
            Before::Nothing => {}
            Before::Repeat => out.extend([0x98, 0x42]),
            Before::Mark => way.put(&mut out, [0x21, 0x2D]),
        }
        way.put(&mut out, code);
    }
    out
}

impl Way {
    fn put(self, out: &mut Vec<u8>, code: [u8; 2]) {
        out.extend_from_slice(self.single);
        out.extend(code.map(|byte| byte | self.half));
    }
}

/// One code by every way, and the same as the body of a macro that is run at once.
pub fn every(code: [u8; 2]) -> impl Iterator<Item = Vec<u8>> {
    (0..COUNT).flat_map(move |index| {
        let string = nth(index, &[code]);
        let body = [&[0x95, 0x41, 0x21], &string[..], &[0x95, 0x4F]].concat();
        [string, body]
    })
}

impl Writer {
    /// Some characters of two bytes by one of the ways.
    pub fn by_a_way(&mut self) {
        let count = self.random.range(1, 3);
        let codes: Vec<_> = (0..count).map(|_| self.symbol_or_cell()).collect();
        let string = nth(self.random.below(COUNT), &codes);
        self.put(&string);
    }

    /// An additional symbol that is a private-use character or stands beside one, or any cell of
    /// JIS X 0208's rows.
    fn symbol_or_cell(&mut self) -> [u8; 2] {
        if self.random.once_in(2) {
            return self.cell();
        }
        let any = self.random.byte(26, 87);
        let cell = self.random.one_of(&[25, 26, 31, 32, 55, 56, 87, 88, any, any]);
        [92 + 0x20, cell + 0x20]
    }
}
