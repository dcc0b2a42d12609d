//! What is measured.

use super::Stock;
use super::case::{Case, Work};
use super::inputs::{
    behind_issue, damaged_kana, damaged_titles, kana, kanji, macro_empty, macro_kana,
    macro_one_byte, marks, mixed, private_use, sought,
};
use crate::call::{LONGEST, Rooms};
use crate::catalogue::given::letters;
use crate::entries::MOST;
use crate::model::ISSUE;
use crate::texts::long;
use crate::titles;

/// Three bytes of text for each byte that is read, so that little is filled with zeros: of the
/// input, and of the macro bodies that its budget pays for.
const TITLE: Rooms = Rooms { text: 256, issues: 64 };
const PLAIN: Rooms = Rooms { text: 3 * LONGEST, issues: 64 };
/// Once the budget of macro-kana is spent, each further call is an issue, 870 of them.
const MACROS: Rooms = Rooms { text: 3 * (65 * LONGEST + 4_096), issues: 1_024 * ISSUE };

pub const TITLES: Case =
    Case { name: "titles", work: Work::Decode(TITLE), initial: 0, inputs: titles::all, passes: 50 };
const KANJI: Case = large("kanji", || vec![kanji()], PLAIN, 5);
const KANA: Case = large("kana", || vec![kana()], PLAIN, 5);
const MIXED: Case = large("mixed", || vec![mixed()], PLAIN, 5);
const MARKS: Case = large("marks", || vec![marks()], PLAIN, 5);
const PRIVATE_USE: Case = large("private-use", || vec![private_use()], PLAIN, 5);
const MACRO_KANA: Case = large("macro-kana", || vec![macro_kana()], MACROS, 1);
const MACRO_ONE_BYTE: Case = large("macro-one-byte", || vec![macro_one_byte()], MACROS, 1);
const MACRO_EMPTY: Case = large("macro-empty", || vec![macro_empty()], MACROS, 1);

/// Decoding, keys, clean titles.
pub const READ: &[Case] = &[
    TITLES,
    KANJI,
    KANA,
    MIXED,
    MARKS,
    PRIVATE_USE,
    MACRO_KANA,
    MACRO_ONE_BYTE,
    MACRO_EMPTY,
    same("key-titles", Work::Key(TITLE.text), TITLES),
    same("key-mixed", Work::Key(PLAIN.text), MIXED),
    same("clean-titles", Work::Clean, TITLES),
    same("clean-kanji", Work::Clean, KANJI),
    same("clean-kana", Work::Clean, KANA),
    same("clean-mixed", Work::Clean, MIXED),
    same("clean-macro-kana", Work::Clean, MACRO_KANA),
    same("clean-macro-one-byte", Work::Clean, MACRO_ONE_BYTE),
    same("clean-macro-empty", Work::Clean, MACRO_EMPTY),
    other("clean-first-long", || vec![behind_issue(kana())], Work::Clean, KANA),
    other("clean-first-macro", || vec![behind_issue(macro_kana())], Work::Clean, MACRO_KANA),
];

/// Measuring what is decoded.
pub const MEASURE: &[Case] = &[
    same("measure-titles", Work::Measure, TITLES),
    same("measure-kanji", Work::Measure, KANJI),
    same("measure-kana", Work::Measure, KANA),
    same("measure-mixed", Work::Measure, MIXED),
    same("measure-marks", Work::Measure, MARKS),
    same("measure-private-use", Work::Measure, PRIVATE_USE),
    same("measure-macro-kana", Work::Measure, MACRO_KANA),
    same("measure-macro-one-byte", Work::Measure, MACRO_ONE_BYTE),
    same("measure-macro-empty", Work::Measure, MACRO_EMPTY),
];

/// Bookmarks that are set, and returned to.
pub const SET: &[Case] = &[
    same("set-titles", Work::Set, TITLES),
    same("set-kanji", Work::Set, KANJI),
    same("set-mixed", Work::Set, MIXED),
    same("set-marks", Work::Set, MARKS),
];
pub const RETURN: &[Case] = &[
    same("return-titles", Work::Return, TITLES),
    same("return-kanji", Work::Return, KANJI),
    same("return-mixed", Work::Return, MIXED),
    same("return-marks", Work::Return, MARKS),
];

/// Decoding by the crate: what fits its first buffers, text that does not, issues that do not.
pub const CRATE: &[Case] = &[
    same("crate-titles", Work::Crate, TITLES),
    same("crate-kanji", Work::Crate, KANJI),
    same("crate-kana", Work::Crate, KANA),
    same("crate-mixed", Work::Crate, MIXED),
    same("crate-marks", Work::Crate, MARKS),
    same("crate-macro-kana", Work::Crate, MACRO_KANA),
    same("crate-macro-one-byte", Work::Crate, MACRO_ONE_BYTE),
    other("crate-damaged", damaged_titles, Work::Crate, TITLES),
    other("crate-damaged-long", || vec![damaged_kana()], Work::Crate, KANA),
];

/// Coding.
pub const CODE: &[Case] = &[
    coded("code-titles", 0, || titles::texts().into_iter().map(Vec::from).collect(), 1),
    coded("code-lines", 1, || vec![long::caption(700).into()], 1),
    coded("code-caption", 1, || vec![long::caption(7_000).into()], 0),
    coded("code-mixed", 0, || vec![long::mixed(400).into()], 1),
    coded("code-marks", 1, || vec![long::marked(400).into()], 1),
    coded("code-newlines", 0, || vec![long::newlines(100).into()], 1),
];

/// The catalogue: keys sought, titles added and removed.
pub const CATALOGUE: &[Case] = &[
    found("catalogue-find-empty", Stock::Empty, || sought(Stock::Empty), 20),
    found("catalogue-find-64", Stock::Different(64), || sought(Stock::Different(64)), 20),
    found("catalogue-find-1024", Stock::Different(MOST), || sought(Stock::Different(MOST)), 2),
    found("catalogue-find-equal", Stock::Equal, || sought(Stock::Equal), 2),
    found("catalogue-find-last", Stock::Last, || sought(Stock::Last), 2),
    added("catalogue-add-remove-empty", Stock::Empty, short, 20),
    added("catalogue-add-remove-64", Stock::Different(64), short, 20),
    added("catalogue-add-remove-1024", Stock::Different(MOST), short, 2),
    added("catalogue-add-remove-equal", Stock::Equal, || alike(Stock::Equal), 2),
    added("catalogue-add-remove-last", Stock::Last, || alike(Stock::Last), 2),
];

/// A title of 30 letters.
fn short() -> Vec<Vec<u8>> {
    vec![letters(false, b"THEQUICKBROWNFOXJUMPSOVERTHELA")]
}

/// A title whose key is the last of as many entries as there can be.
fn alike(stock: Stock) -> Vec<Vec<u8>> {
    vec![letters(false, &stock.key(MOST - 1))]
}

/// One input of 64 KB, a caption.
const fn large(
    name: &'static str,
    inputs: fn() -> Vec<Vec<u8>>,
    rooms: Rooms,
    passes: u32,
) -> Case {
    Case { name, work: Work::Decode(rooms), initial: 1, inputs, passes }
}

/// Other work with the same inputs.
const fn same(name: &'static str, work: Work, of: Case) -> Case {
    Case { name, work, ..of }
}

/// Other work with other inputs, under the same options and as often.
const fn other(name: &'static str, inputs: fn() -> Vec<Vec<u8>>, work: Work, of: Case) -> Case {
    Case { name, work, inputs, ..of }
}

/// Texts to code.
const fn coded(
    name: &'static str,
    initial: u32,
    inputs: fn() -> Vec<Vec<u8>>,
    passes: u32,
) -> Case {
    Case { name, work: Work::Code, initial, inputs, passes }
}

/// Keys to seek.
const fn found(
    name: &'static str,
    stock: Stock,
    inputs: fn() -> Vec<Vec<u8>>,
    passes: u32,
) -> Case {
    Case { name, work: Work::Find(stock), initial: 0, inputs, passes }
}

/// Titles to add and remove.
const fn added(
    name: &'static str,
    stock: Stock,
    inputs: fn() -> Vec<Vec<u8>>,
    passes: u32,
) -> Case {
    Case { name, work: Work::AddRemove(stock), initial: 0, inputs, passes }
}
