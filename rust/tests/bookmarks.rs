//! What stands before a bookmark and the rest behind it are the whole.

use isdb_text::InitialState::{Caption, Si};
use isdb_text::ffi::{self, Call, ISSUE_NUMBERS};
use isdb_text::{
    Bookmark, Bookmarks, DecodeOptions, InitialState, IssueKind, Reason, Refused, WidthMode,
    decode_with, measure_with,
};

/// A place, the text behind it, and how many issues are reported behind it.
type Rest = (usize, &'static str, usize);

/// Strings, each with the places that a bookmark can have.
const STRINGS: [(InitialState, &[u8], &[Rest]); 18] = [
    (Si, &[], &[(0, "", 0)]),
    // あ, katakana to G0, a newline, ア, い.
    (
        Si,
        &[0xA2, 0x1B, 0x28, 0x31, 0x0D, 0x22, 0xA4],
        &[
            (0, "あ\nアい", 0),
            (1, "\nアい", 0),
            (4, "\nアい", 0),
            (5, "アい", 0),
            (6, "い", 0),
            (7, "", 0),
        ],
    ),
    // A letter and a space in the middle size, a letter in the normal one.
    (
        Si,
        &[0x89, 0x0E, 0x41, 0x20, 0x8A, 0x41],
        &[
            (0, "A Ａ", 0),
            (1, "A Ａ", 0),
            (2, "A Ａ", 0),
            (3, " Ａ", 0),
            (4, "Ａ", 0),
            (5, "Ａ", 0),
            (6, "", 0),
        ],
    ),
    // Two bytes; one, where the second is in the other half.
    (
        Si,
        &[0x30, 0x21, 0xA2],
        &[(0, "亜あ", 0), (2, "あ", 0), (3, "", 0)],
    ),
    (Si, &[0x24, 0xA2], &[(0, "あ", 1), (1, "あ", 0), (2, "", 0)]),
    // A repeat waits, over a newline too.
    (
        Si,
        &[0x98, 0x42, 0x0D, 0xA2],
        &[
            (0, "\nああ", 0),
            (2, "\nああ", 0),
            (3, "ああ", 0),
            (4, "", 0),
        ],
    ),
    // A mark waits, over an issue too; before a newline; before the end.
    (
        Si,
        &[0xA2, 0x21, 0x2D, 0xA0, 0xA4],
        &[
            (0, "あい\u{301}", 1),
            (1, "い\u{301}", 1),
            (3, "い\u{301}", 1),
            (4, "い\u{301}", 0),
            (5, "", 0),
        ],
    ),
    (
        Si,
        &[0xA2, 0x21, 0x2D, 0x0D, 0xA4],
        &[
            (0, "あ\u{301}\nい", 1),
            (1, "\u{301}\nい", 1),
            (3, "\u{301}\nい", 1),
            (4, "い", 0),
            (5, "", 0),
        ],
    ),
    (
        Si,
        &[0xA2, 0x21, 0x2D],
        &[(0, "あ\u{301}", 1), (1, "\u{301}", 1), (3, "\u{301}", 1)],
    ),
    // Both wait, for U+FFFD.
    (
        Si,
        &[0x98, 0x42, 0x21, 0x2D, 0x29, 0x21],
        &[
            (0, "\u{FFFD}\u{FFFD}\u{301}", 1),
            (2, "\u{FFFD}\u{FFFD}\u{301}", 1),
            (4, "\u{FFFD}\u{FFFD}\u{301}", 1),
            (6, "", 0),
        ],
    ),
    // An unknown escape, and one that ends before a byte that is no part of it.
    (
        Si,
        &[0xA2, 0x1B, 0x24, 0x41, 0xA4],
        &[(0, "あい", 1), (1, "い", 1), (4, "い", 0), (5, "", 0)],
    ),
    (
        Si,
        &[0x1B, 0x24, 0xA2],
        &[(0, "あ", 1), (2, "あ", 0), (3, "", 0)],
    ),
    // Private-use characters.
    (
        Si,
        &[0x7C, 0x3A, 0xA2, 0x7C, 0x3B],
        &[
            (0, "\u{E290}あ\u{E291}", 0),
            (2, "あ\u{E291}", 0),
            (3, "\u{E291}", 0),
            (5, "", 0),
        ],
    ),
    // A lone single shift; a definition that the end cuts.
    (Si, &[0x19, 0x0D], &[(0, "\n", 1), (1, "\n", 0), (2, "", 0)]),
    (
        Caption,
        &[0xA2, 0x95, 0x40, 0x21],
        &[(0, "あ", 1), (1, "", 1), (4, "", 0)],
    ),
    // A macro's body, あ and a code without a character, that is called twice; one that is run as
    // it is defined, with a mark that waits to the end; a built-in one.
    (
        Caption,
        &[
            0x95, 0x40, 0x21, 0xA2, 0x29, 0x21, 0x95, 0x4F, 0x1D, 0x21, 0x1D, 0x21,
        ],
        &[
            (0, "あ\u{FFFD}あ\u{FFFD}", 2),
            (8, "あ\u{FFFD}あ\u{FFFD}", 2),
            (10, "あ\u{FFFD}", 1),
            (12, "", 0),
        ],
    ),
    (
        Caption,
        &[0xA4, 0x95, 0x41, 0x21, 0xA2, 0x21, 0x2D, 0x95, 0x4F],
        &[
            (0, "いあ\u{301}", 1),
            (1, "あ\u{301}", 1),
            (9, "\u{301}", 1),
        ],
    ),
    (
        Caption,
        &[0x1D, 0x61, 0x0E, 0x22],
        &[(0, "ア", 0), (2, "ア", 0), (3, "ア", 0), (4, "", 0)],
    ),
];

/// The start of a string, and the width by the size.
fn options(initial: InitialState) -> DecodeOptions {
    DecodeOptions {
        initial,
        ..DecodeOptions::default()
    }
}

fn refused<T>(number: u32) -> Result<T, Refused> {
    Err(Refused { number, place: 0 })
}

/// Sets a bookmark with the default options.
fn set(bookmarks: &mut Bookmarks, bytes: &[u8], place: usize, name: u32) -> Result<(), Refused> {
    bookmarks.set(bytes, place, name, &DecodeOptions::default())
}

/// Sets a bookmark, which is refused, and leaves the bookmarks as they were.
fn refuses(number: u32, bookmarks: &mut Bookmarks, bytes: &[u8], place: usize, name: u32) {
    let before = bookmarks.clone();
    assert_eq!(set(bookmarks, bytes, place, name), refused(number));
    assert_eq!(*bookmarks, before);
}

/// The text behind a bookmark, with the default options.
fn rest(bookmarks: &Bookmarks, bytes: &[u8], name: u32) -> String {
    let rest = bookmarks.resume(bytes, name, &DecodeOptions::default());
    rest.unwrap().text
}

#[test]
fn none_is_set() {
    let mut bookmarks = Bookmarks::default();
    assert_eq!(bookmarks.numbers(), [0; Bookmarks::NUMBERS]);
    assert_eq!(format!("{bookmarks:?}"), "{}");
    let options = DecodeOptions::default();
    for name in [0, 7, 15, 16, 287, u32::MAX] {
        assert_eq!(bookmarks.get(name), None);
        assert_eq!(bookmarks.resume(&[0xA2], name, &options), refused(15));
    }
    for name in [16, 17, 287, u32::MAX] {
        refuses(15, &mut bookmarks, &[0xA2], 0, name);
    }
}

/// At every place, in any order of names.
#[test]
fn the_whole_is_the_part_and_the_rest() {
    for (initial, bytes, rests) in STRINGS {
        let (options, mut bookmarks) = (options(initial), Bookmarks::new());
        let whole = decode_with(bytes, &options);
        for place in (0..bytes.len() + 3).chain([usize::MAX]) {
            let name = place as u32 % Bookmarks::NAMES;
            let before = bookmarks.clone();
            let answer = bookmarks.set(bytes, place, name, &options);
            let Some(&(_, text, issues)) = rests.iter().find(|rest| rest.0 == place) else {
                assert_eq!(answer, refused(16), "{place} {bytes:02X?}");
                assert_eq!(bookmarks, before);
                continue;
            };
            assert_eq!(answer, Ok(()), "{place} {bytes:02X?}");
            let read = bookmarks.resume(bytes, name, &options).unwrap();
            assert_eq!(read.text, text, "{place} {bytes:02X?}");
            assert_eq!(read.issues.len(), issues, "{place} {bytes:02X?}");
            let bookmark = bookmarks.get(name).unwrap();
            assert_eq!(bookmark.place, place);
            assert_eq!(read.text, whole.text[bookmark.text..]);
            assert_eq!(read.issues, whole.issues[bookmark.issues..]);
            let private_use = text.matches(|c| ('\u{E000}'..='\u{F8FF}').contains(&c));
            assert_eq!(read.private_use, private_use.count());
        }
    }
}

/// The same over strings behind one another, in either width.
#[test]
fn longer_strings() {
    let strings = STRINGS.iter().filter(|string| string.0 == Caption);
    let bytes = [0x0E, 0x41, 0x20, 0x0F].into_iter();
    let bytes = bytes.chain(strings.flat_map(|string| string.1.iter().copied()));
    let bytes: Vec<u8> = bytes.collect();
    let mut bookmarks = Bookmarks::new();
    for width in [WidthMode::CharacterSize, WidthMode::AnnexE] {
        let options = DecodeOptions {
            initial: Caption,
            width,
        };
        let whole = decode_with(&bytes, &options);
        let (mut last, mut places) = (None, 0);
        for place in 0..=bytes.len() {
            if bookmarks.set(&bytes, place, 7, &options).is_err() {
                continue;
            }
            let (bookmark, read) = (bookmarks.get(7), bookmarks.resume(&bytes, 7, &options));
            let (bookmark, read) = (bookmark.unwrap(), read.unwrap());
            assert_eq!(read.text, whole.text[bookmark.text..], "{place}");
            assert_eq!(read.issues, whole.issues[bookmark.issues..], "{place}");
            let before = (bookmark.text, bookmark.issues);
            assert!(last <= Some(before), "{place}");
            (last, places) = (Some(before), places + 1);
        }
        assert_eq!(bookmarks.get(7).unwrap().place, bytes.len());
        assert!(places > 10);
    }
}

/// The step before the place is that of the whole string: cut there, it would be another.
#[test]
fn stopping_is_not_cutting() {
    let (mut bookmarks, options) = (Bookmarks::new(), DecodeOptions::default());
    let bytes = [0x1B, 0x24, 0xA2];
    set(&mut bookmarks, &bytes, 2, 0).unwrap();
    let bookmark = Bookmark {
        place: 2,
        text: 0,
        issues: 1,
    };
    assert_eq!(bookmarks.get(0), Some(bookmark));
    let read = bookmarks.resume(&bytes, 0, &options).unwrap();
    assert_eq!((read.text.as_str(), read.issues.len()), ("あ", 0));
    let unknown = IssueKind::UnknownEscape(vec![0x1B, 0x24]);
    assert_eq!(decode_with(&bytes, &options).issues[0].kind, unknown);
    let cut = decode_with(&bytes[..2], &options);
    assert_eq!(cut.issues[0].kind, IssueKind::Truncated);
}

#[test]
fn a_name_is_replaced() {
    let (mut bookmarks, bytes) = (Bookmarks::new(), [0xA2, 0x21, 0x2D, 0xA4]);
    set(&mut bookmarks, &bytes, 3, 15).unwrap();
    set(&mut bookmarks, &bytes, 1, 0).unwrap();
    set(&mut bookmarks, &bytes, 4, 15).unwrap();
    set(&mut bookmarks, &bytes, 3, 7).unwrap();
    assert_eq!(rest(&bookmarks, &bytes, 0), "い\u{301}");
    assert_eq!(rest(&bookmarks, &bytes, 7), "い\u{301}");
    assert_eq!(rest(&bookmarks, &bytes, 15), "");
    let mut others = Bookmarks::new();
    for (place, name) in [(4, 15), (3, 7), (1, 0)] {
        set(&mut others, &bytes, place, name).unwrap();
    }
    assert_eq!(bookmarks, others);
    refuses(16, &mut bookmarks, &bytes, 2, 7);
    refuses(15, &mut bookmarks, &bytes, 3, 16);
    let shown = "{0: Bookmark { place: 1, text: 3, issues: 0 }, \
                 7: Bookmark { place: 3, text: 3, issues: 0 }, \
                 15: Bookmark { place: 4, text: 8, issues: 0 }}";
    assert_eq!(format!("{bookmarks:?}"), shown);
}

/// Sixteen marks, and one more, before a character and at the end.
#[test]
fn marks() {
    let bytes = [[0x21, 0x2D].repeat(17), vec![0xA2]].concat();
    let (mut bookmarks, text) = (Bookmarks::new(), format!("あ{}", "\u{301}".repeat(17)));
    for waiting in 0..=16 {
        set(&mut bookmarks, &bytes, 2 * waiting, 7).unwrap();
        assert_eq!(rest(&bookmarks, &bytes, 7), text);
    }
    refuses(16, &mut bookmarks, &bytes, 34, 7);
    refuses(16, &mut bookmarks, &bytes[..34], 34, 7);
    set(&mut bookmarks, &bytes, 35, 8).unwrap();
    assert_eq!(rest(&bookmarks, &bytes, 8), "");
    set(&mut bookmarks, &bytes[..32], 32, 7).unwrap();
    assert_eq!(rest(&bookmarks, &bytes[..32], 7), text[3..35]);
}

/// A macro 21, あ, that is called; an undefined control, MSZ, two marks, RPC 5, additional symbols
/// to G1, LS1, LS3R; a space.
const STRING: [u8; 24] = [
    0x95, 0x40, 0x21, 0xA2, 0x95, 0x4F, 0x1D, 0x21, 0xA0, 0x89, 0x21, 0x2D, 0x21, 0x2E, 0x98, 0x45,
    0x1B, 0x24, 0x29, 0x3B, 0x0E, 0x1B, 0x7C, 0x20,
];

/// The numbers with a bookmark 2 before its space, by the form.
fn numbers() -> Vec<u32> {
    let mut bookmark = [0; 287];
    let first = [1, 23, 0, 14, 2, 15, 1, 3, 1, 5, 2, 10, 0x301, 0x300];
    bookmark[..first.len()].copy_from_slice(&first);
    bookmark[28 + 0x21] = 3 + 1;
    bookmark[156 + 0x21] = 1;
    bookmark[284..].copy_from_slice(&[1, 3, 1]);
    let mut numbers = vec![0; Bookmarks::NUMBERS];
    numbers[2 * 287..3 * 287].copy_from_slice(&bookmark);
    numbers
}

#[test]
fn the_form() {
    let (mut bookmarks, options) = (Bookmarks::new(), options(Caption));
    bookmarks.set(&STRING, 23, 2, &options).unwrap();
    assert_eq!(bookmarks.numbers(), numbers());
    let read = bookmarks.resume(&STRING, 2, &options).unwrap();
    assert_eq!(read.text, "     \u{301}\u{300}");
}

#[test]
fn kept_and_taken_up() {
    let mut bookmarks = Bookmarks::from_numbers(numbers()).unwrap();
    assert_eq!(bookmarks.numbers(), numbers());
    let (text, options) = (format!("{}\u{301}\u{300}", " ".repeat(5)), options(Caption));
    assert_eq!(bookmarks.resume(&STRING, 2, &options).unwrap().text, text);
    bookmarks.set(&STRING, 0, 2, &options).unwrap();
    let read = bookmarks.resume(&STRING, 2, &options);
    assert_eq!(read, Ok(decode_with(&STRING, &options)));
}

#[test]
fn damaged() {
    for length in [0, 1, 287, Bookmarks::NUMBERS - 1, Bookmarks::NUMBERS + 1] {
        assert_eq!(Bookmarks::from_numbers(vec![0; length]), refused(15));
    }
    for name in 0..16 {
        for first in [2, 3, 0x8000_0001, u32::MAX] {
            let mut numbers = numbers();
            numbers[287 * name] = first;
            assert_eq!(Bookmarks::from_numbers(numbers), refused(15));
        }
    }
}

/// The answer where one number of the bookmark is another.
fn changed(at: usize, number: u32) -> Result<String, Refused> {
    let mut numbers = numbers();
    numbers[2 * 287 + at] = number;
    let read = Bookmarks::from_numbers(numbers)?.resume(&STRING, 2, &options(Caption));
    read.map(|read| read.text)
}

/// Numbers that no reading of the string has, in the header's order.
#[test]
fn impossible() {
    assert_eq!(changed(0, 0), refused(15));
    let length = STRING.len() as u32;
    assert_eq!(changed(1, length + 1), refused(15));
    assert_eq!(changed(28 + 0x21, length + 1), refused(15));
    assert_eq!(changed(156 + 0x21, length - 2), refused(15));
    assert_eq!(changed(156 + 0x21, 3), refused(15));
    for element in 2..6 {
        assert_eq!(changed(element, 32), refused(15));
    }
    assert_eq!(changed(6, 4), refused(15));
    assert_eq!(changed(7, 4), refused(15));
    assert_eq!(changed(9, 64), refused(15));
    assert_eq!(changed(284, 64 * length + 4_096 + 1), refused(15));
    assert_eq!(changed(12, 0x41), refused(15));
    assert_eq!(changed(13, 0), refused(15));
    assert_eq!(changed(285, 1 << 31), refused(15));
}

/// Each number changed: a text, or 15.
#[test]
fn changed_numbers_are_safe() {
    for at in 0..287 {
        for number in [0, 1, 3, 24, 63, 0x302, 0xFFFF, 0x7FFF_FFFF, u32::MAX] {
            let answer = changed(at, number);
            assert!(answer.is_ok() || answer == refused(15), "{at} {number}");
        }
    }
    assert_eq!(changed(9, 63).unwrap().len(), 63 + 4);
    assert_eq!(changed(13, 0x302).unwrap(), "     \u{301}\u{302}");
}

/// A bookmark of one string lent with another, or with other options.
#[test]
fn other_strings_are_safe() {
    for (initial, bytes, rests) in STRINGS {
        for (place, ..) in rests {
            let mut bookmarks = Bookmarks::new();
            bookmarks.set(bytes, *place, 0, &options(initial)).unwrap();
            for (initial, other, _) in STRINGS {
                let answer = bookmarks.resume(other, 0, &options(initial));
                assert!(answer.is_ok() || answer == refused(15));
            }
        }
    }
}

/// Text, issues, and both that outgrow the first buffers.
#[test]
fn buffers_grow() {
    let (mut bookmarks, options) = (Bookmarks::new(), DecodeOptions::default());
    let both = [0x98, 0x7F, 0xA2, 0xA0].repeat(100);
    set(&mut bookmarks, &both, 6, 0).unwrap();
    let read = bookmarks.resume(&both, 0, &options).unwrap();
    assert_eq!(read.text, "あ".repeat(99 * 63));
    assert_eq!(read.issues.len(), 99);
    set(&mut bookmarks, &[0xA0; 1_000], 1, 0).unwrap();
    let read = bookmarks.resume(&[0xA0; 1_000], 0, &options).unwrap();
    assert!(read.issues.iter().map(|issue| issue.offset).eq(1..1_000));
    assert!(read.issues.iter().all(|issue| issue.position == 0));
}

/// More than the whole string takes: a repeat that was not there, and a set of mosaics.
#[test]
fn buffers_grow_over_the_whole() {
    let first = |at: usize, number| {
        let mut bookmarks = Bookmarks::new();
        set(&mut bookmarks, &[], 0, 0).unwrap();
        let mut numbers = bookmarks.numbers().to_vec();
        numbers[at] = number;
        Bookmarks::from_numbers(numbers).unwrap()
    };
    assert_eq!(rest(&first(9, 63), &[0xA2], 0), "あ".repeat(63));
    let (bytes, options) = ([0x30, 0x21].repeat(100), DecodeOptions::default());
    let read = first(2, 4).resume(&bytes, 0, &options).unwrap();
    assert_eq!((read.text.as_str(), read.issues.len()), ("", 200));
}

#[test]
fn the_longest() {
    let (mut bookmarks, bytes) = (Bookmarks::new(), [0xA2; 65_536]);
    set(&mut bookmarks, &bytes[1..], 65_534, 0).unwrap();
    assert_eq!(rest(&bookmarks, &bytes[1..], 0), "あ");
    set(&mut bookmarks, &bytes[1..], 65_535, 15).unwrap();
    assert_eq!(rest(&bookmarks, &bytes[1..], 15), "");
    refuses(3, &mut bookmarks, &bytes, 0, 0);
    let answer = bookmarks.resume(&bytes, 0, &DecodeOptions::default());
    assert_eq!(answer, refused(3));
}

#[test]
fn reasons() {
    let mut bookmarks = Bookmarks::new();
    let mut reason = |place, name| {
        let refused = set(&mut bookmarks, &[0x30, 0x21], place, name).unwrap_err();
        refused.reason().unwrap()
    };
    assert_eq!(reason(0, 16), Reason::BookmarkMismatch);
    assert_eq!(reason(1, 16), Reason::BookmarkMismatch);
    assert_eq!(reason(1, 15), Reason::BookmarkPlace);
    let words = "no bookmark can stand at the place";
    assert_eq!(reason(3, 0).to_string(), words);
    let unset = bookmarks.resume(&[], 0, &DecodeOptions::default());
    let unset = unset.unwrap_err();
    assert_eq!(unset.reason(), Some(Reason::BookmarkMismatch));
    assert_eq!(unset.to_string(), "refused 15 0");
}

/// Over a table without cells.
fn call<'a>(cells: &'a [u16], initial: u32, input: &'a [u8]) -> Call<'a> {
    Call {
        cells,
        initial,
        width: 0,
        input,
    }
}

/// The charge is that of the whole reading, wherever it goes on.
#[test]
fn the_charge() {
    let cells = [0; 94 * 94];
    for (initial, bytes, rests) in STRINGS {
        let call = call(&cells, (initial == Caption).into(), bytes);
        let charged = measure_with(bytes, &options(initial)).unwrap().charged;
        for (place, ..) in rests {
            let (mut store, mut counts) = (vec![0; Bookmarks::NUMBERS], [7; 5]);
            assert_eq!(ffi::bookmark_set(call, *place, 9, &mut store, &mut []), 0);
            let (mut text, mut issues) = ([0; 64], [0; 8 * ISSUE_NUMBERS]);
            let refused =
                ffi::bookmark_return(call, 9, &store, &mut text, &mut issues, &mut counts);
            assert_eq!((refused, counts[0], counts[3]), (0, 0, charged));
        }
    }
}

/// The number that setting answers. After a refusal the store is as it was, and the place 0.
fn sets(call: Call, place: usize, name: u32, store: &mut [u32]) -> u32 {
    let (before, mut counts) = (store.to_vec(), [7; 2]);
    let refused = ffi::bookmark_set(call, place, name, store, &mut counts);
    assert_eq!(counts, [0, 7]);
    assert!(refused == 0 || *store == before);
    refused
}

/// The number that returning answers. After a refusal the buffers are zero, and each of the five
/// counts 0.
fn returns(call: Call, name: u32, store: &[u32], text: usize, issues: usize) -> u32 {
    let (mut lent, mut numbers, mut counts) = (vec![0xAA; text], vec![7; issues], [7; 6]);
    let refused = ffi::bookmark_return(call, name, store, &mut lent, &mut numbers, &mut counts);
    if refused != 0 {
        assert_eq!((lent, numbers), (vec![0; text], vec![0; issues]));
        assert_eq!(counts, [0, 0, 0, 0, 0, 7]);
    }
    refused
}

/// 1, 2, 3, 15, 16 on setting and 1, 2, 3, 15, 8, 9 on returning: each fails before those behind it.
#[test]
fn the_order_of_questions() {
    let (cells, short, long) = ([0; 94 * 94], [0; 94 * 94 - 1], [0xA2; 65_536]);
    // あ, with an issue, and a code without a character.
    let bytes = [0x24, 0xA2, 0x29, 0x21];
    let mut store = vec![0; Bookmarks::NUMBERS];
    assert_eq!(sets(call(&cells, 0, &bytes), 0, 5, &mut store), 0);
    let mut answers = |cells: &[u16], initial, input: &[u8], name| {
        let (call, last) = (call(cells, initial, input), Bookmarks::NUMBERS - 1);
        let set = sets(call, 3, name, &mut store);
        let returned = returns(call, name, &store, 5, 9);
        // Another length, or a first number above 1, fails where a name above 15 does.
        let wrong = if set < 15 { set } else { 15 };
        assert_eq!(sets(call, 3, name, &mut store[..last]), wrong);
        assert_eq!(returns(call, name, &store[..last], 5, 9), wrong);
        let mut damaged = store.clone();
        damaged[287 * 15] = 2;
        assert_eq!(sets(call, 3, name, &mut damaged), wrong);
        assert_eq!(returns(call, name, &damaged, 5, 9), wrong);
        (set, returned)
    };
    assert_eq!(answers(&short, 2, &long, 16), (1, 1));
    assert_eq!(answers(&cells, 2, &long, 16), (2, 2));
    assert_eq!(answers(&cells, 0, &long, 16), (3, 3));
    assert_eq!(answers(&cells, 0, &bytes, 16), (15, 15));
    assert_eq!(answers(&cells, 0, &bytes, 4), (16, 15));
    assert_eq!(answers(&cells, 0, &bytes, 5), (16, 8));
    let call = call(&cells, 0, &bytes);
    assert_eq!(returns(call, 5, &store, 6, 9), 9);
    assert_eq!(returns(call, 5, &store, 6, 10), 0);
}

/// A slice of counts gets as many as it has room for, and keeps what it has beyond them; behind the
/// text and the issues stand zeros.
#[test]
fn counts() {
    let (cells, mut store) = ([0; 94 * 94], vec![0; Bookmarks::NUMBERS]);
    let call = call(&cells, 0, &[0xA2, 0xA0, 0x7C, 0x3A, 0xA0, 0xA4]);
    for room in 0..=6 {
        let kept = |mut counts: [usize; 6], room: usize| {
            counts[room..].fill(7);
            counts
        };
        let mut counts = [7; 6];
        let refused = ffi::bookmark_set(call, 2, 7, &mut store, &mut counts[..room]);
        assert_eq!((refused, counts), (0, kept([0, 7, 7, 7, 7, 7], room)));

        let (mut text, mut issues) = ([0xAA; 8], [7; 12]);
        let lent = &mut counts[..room];
        let refused = ffi::bookmark_return(call, 7, &store, &mut text, &mut issues, lent);
        assert_eq!((refused, counts), (0, kept([0, 6, 1, 0, 1, 7], room)));
        assert_eq!(text, *"\u{E290}い\0\0".as_bytes());
        assert_eq!(issues, [4, 2, 0xA0, 0, 6, 0, 0, 0, 0, 0, 0, 0]);
    }
}
