//! The list of calls: sequences on one store, each begun without bookmarks; then stores that are
//! loaded.

use super::{Case, Kind, Table};
use crate::bookmark::{
    self, Bookmark, CHARGE, COUNT, GL, GR, ISSUES, LENGTHS, MARKS, NARROW, NUMBERS, OFFSET, PLACE,
    REPEAT, SETS, STARTS, STORE, TEXT, named_mut,
};
use crate::bookmarks::given::marks;
use crate::call::LONGEST;
use crate::inputs::bombs;

/// あ, a mark with い, a macro with an issue, a repeat, letters, the macro anew, marks before a
/// newline.
const LINE: [u8; 40] = [
    0xA2, 0x21, 0x2D, 0xA4, 0x1B, 0x2B, 0x20, 0x70, 0x95, 0x40, 0x21, 0xA6, 0xA0, 0x95, 0x4F, 0x1D,
    0x21, 0x98, 0x43, 0xA8, 0x89, 0x0E, 0x41, 0x42, 0xA0, 0x95, 0x40, 0x21, 0xAA, 0x95, 0x4F, 0x1D,
    0x21, 0x0F, 0x21, 0x2E, 0x21, 0x2F, 0x0D, 0xA2,
];
/// Behind the mark, the definition, the repeat, MSZ and LS1, and the second of two marks.
const BEHIND_MARK: usize = 3;
const DEFINED: usize = 15;
const REPEATED: usize = 19;
const NARROWED: usize = 22;
const TWO_MARKS: usize = 38;

/// The whole list.
pub fn all() -> Vec<Case> {
    let lists =
        [sequence(), seen(), waiting(), macros(), refused(), damaged(), other_lengths(), long()];
    lists.concat()
}

/// One input, of which several places are named and returned to.
fn sequence() -> Vec<Case> {
    vec![
        rest(0, &LINE).anew(),
        set(0, &LINE, 0),
        rest(0, &LINE),
        set(1, &LINE, DEFINED),
        set(0, &LINE, REPEATED),
        rest(1, &LINE),
        rest(0, &LINE),
        rest(0, &LINE).lent([-1, 0]),
        rest(0, &LINE).lent([-1, -1]),
        rest(0, &LINE).lent([0, -1]),
        rest(0, &LINE).lent([7, 4]),
        set(0, &LINE, BEHIND_MARK),
        rest(0, &LINE),
        set(0, &LINE, BEHIND_MARK - 1),
        set(0, &LINE, NARROWED),
        rest(0, &LINE),
        set(0, &LINE, DEFINED - 3),
        set(0, &LINE, TWO_MARKS),
        rest(0, &LINE),
        set(0, &LINE, LINE.len()),
        rest(0, &LINE),
        set(0, &LINE, LINE.len() + 1),
        set(2, &LINE, DEFINED).under(1, 1),
        rest(2, &LINE).under(1, 1),
        // Names that are none, and the last one.
        rest(16, &LINE),
        set(16, &LINE, 20),
        set(u32::MAX, &LINE, 2),
        set(15, &LINE, 20).anew(),
        rest(15, &LINE),
        rest(14, &LINE),
    ]
}

/// Steps that see bytes behind the place, and a character by the Rust's table.
fn seen() -> Vec<Case> {
    let kanji = [0x34, 0x41, 0x23, 0x41, 0x3B, 0x7A, 0x7C, 0x3A];
    vec![
        set(0, &[0x1B, 0x24, 0xA2], 2).anew(),
        rest(0, &[0x1B, 0x24, 0xA2]),
        set(0, &[0x19, 0x0D], 1),
        rest(0, &[0x19, 0x0D]),
        set(0, &[0x9D, 0x29, 0x30, 0xA2], 3),
        set(0, &kanji, 2).by_jis_tab(),
        rest(0, &kanji).by_jis_tab(),
        rest(0, &kanji),
        set(0, &kanji, 3).by_jis_tab(),
    ]
}

/// As many marks as a bookmark holds, and one more; behind them a newline, nothing.
fn waiting() -> Vec<Case> {
    let line = |count: usize| [&[0xA2], &marks(count)[..], &[0x0D, 0xA4, 0x21, 0x2D]].concat();
    vec![
        set(0, &line(16), 33).anew(),
        rest(0, &line(16)),
        set(0, &line(17), 35),
        set(0, &line(17), 33),
        rest(0, &line(17)),
        set(0, &marks(16), 32),
        rest(0, &marks(16)),
        rest(0, &marks(16)).on(store_at(&marks(16), 32, |numbers| numbers[COUNT] = 17)),
    ]
}

/// Bodies that are called, built-in ones, and a budget that is spent.
fn macros() -> Vec<Case> {
    let built_in = [0x1D, 0x61, 0x0E, 0x22, 0xA2];
    let spent = bombs::called(&[0x87; 129], 350);
    vec![
        set(0, &built_in, 2).under(1, 0).anew(),
        rest(0, &built_in).under(1, 0),
        rest(0, &built_in),
        set(0, &built_in, 1).under(1, 0),
        set(0, &spent, 348),
        rest(0, &spent),
    ]
}

/// Each of the first questions, before the others.
fn refused() -> Vec<Case> {
    vec![
        set(0, &LINE, 2).under(2, 0).anew(),
        rest(16, &LINE).under(0, 2),
        set(16, &LINE, 2).by_less().under(2, 0),
        rest(16, &LINE).by_less(),
    ]
}

/// Numbers that no reading of the input has, by one thing each; and such as are not asked.
fn damaged() -> Vec<Case> {
    let on = |damage: Damage| rest(0, &LINE).on(store_at(&LINE, TWO_MARKS, damage));
    vec![
        on(|numbers| numbers[0] = 2),
        on(|numbers| numbers[0] = 0),
        on(|numbers| numbers[PLACE] = LINE.len() as u32 + 1),
        on(|numbers| numbers[SETS + 3] = 32),
        on(|numbers| numbers[GL] = 4),
        on(|numbers| numbers[GR] = 4),
        on(|numbers| numbers[NARROW] = 2),
        on(|numbers| numbers[REPEAT] = 64),
        on(|numbers| numbers[COUNT] = 17),
        on(|numbers| numbers[MARKS + 1] = 0x303),
        on(|numbers| numbers[COUNT] = 3),
        on(|numbers| numbers[LENGTHS + 0x21] = 12),
        on(|numbers| numbers[LENGTHS + 0x22] = LINE.len() as u32 + 1),
        on(|numbers| numbers[LENGTHS + 0x22] = 15),
        on(|numbers| (numbers[STARTS + 0x22], numbers[LENGTHS + 0x22]) = (u32::MAX, 0)),
        on(|numbers| numbers[CHARGE] = 64 * LINE.len() as u32 + 4_097),
        on(|numbers| numbers[TEXT] = 1 << 31),
        // What is not asked, and other numbers that a reading could have.
        on(|numbers| (numbers[OFFSET], numbers[ISSUES]) = (u32::MAX, u32::MAX)),
        on(|numbers| numbers[MARKS + 2] = 7),
        on(|numbers| {
            numbers[COUNT] = 1;
            numbers[CHARGE] = 64 * LINE.len() as u32 + 4_096;
            numbers[TEXT] = i32::MAX as u32;
        }),
        on(|numbers| {
            (numbers[PLACE], numbers[STARTS + 0x21], numbers[LENGTHS + 0x21]) = (31, 1, 4);
            (numbers[SETS + 2], numbers[REPEAT]) = (31, 63);
        }),
        rest(0, &LINE[..38]).on(store_at(&LINE, TWO_MARKS, |_| {})),
        rest(0, &LINE[..37]),
    ]
}

/// Stores of other lengths, and a first number above 1 beside.
fn other_lengths() -> Vec<Case> {
    let with = |length: usize| {
        let mut store = store_at(&LINE, TWO_MARKS, |_| {});
        store.resize(length, 0);
        store
    };
    let beside = || {
        let mut store = with(STORE);
        named_mut(&mut store, 1)[0] = 2;
        store
    };
    vec![
        set(0, &LINE, 0).on(with(STORE - 1)),
        rest(0, &LINE).on(with(STORE - 1)),
        set(0, &LINE, 2).on(with(STORE + 1)),
        rest(0, &LINE),
        rest(0, &LINE).on(with(NUMBERS)),
        set(0, &LINE, 2).on(vec![]),
        set(0, &LINE, 2).on(beside()),
        rest(0, &LINE),
    ]
}

/// Inputs that are too long.
fn long() -> Vec<Case> {
    let input = vec![0; LONGEST + 1];
    vec![set(16, &input, 0).anew(), rest(0, &input)]
}

/// What is done to the numbers of a bookmark.
type Damage = fn(&mut Bookmark);

/// The store with a bookmark at this place, with some damage.
fn store_at(input: &[u8], place: usize, damage: Damage) -> Vec<u32> {
    let mut store = vec![0; STORE];
    let case = set(0, input, place);
    let mut numbers = bookmark::set(case.call(), place, 0, &store).expect("a step begins there");
    damage(&mut numbers);
    *named_mut(&mut store, 0) = numbers;
    store
}

/// With a table of zeros, under Si and CharacterSize.
fn set(name: u32, input: &[u8], place: usize) -> Case {
    Case {
        kind: Kind::Set,
        table: Table::Zeros,
        options: (0, 0),
        name,
        place,
        input: input.to_vec(),
        beyond: [0, 0],
        loaded: None,
    }
}

/// The same, in rooms that just suffice.
fn rest(name: u32, input: &[u8]) -> Case {
    Case { kind: Kind::Return, ..set(name, input, 0) }
}

impl Case {
    fn under(mut self, initial: u32, width: u32) -> Case {
        self.options = (initial, width);
        self
    }

    fn by_jis_tab(mut self) -> Case {
        self.table = Table::JisTab;
        self
    }

    fn by_less(mut self) -> Case {
        self.table = Table::Less;
        self
    }

    fn lent(mut self, beyond: [isize; 2]) -> Case {
        self.beyond = beyond;
        self
    }

    fn on(mut self, store: Vec<u32>) -> Case {
        self.loaded = Some(store);
        self
    }

    /// On a store without bookmarks.
    fn anew(self) -> Case {
        self.on(vec![0; STORE])
    }
}
