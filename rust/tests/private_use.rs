//! Private-use characters are counted, and a title that has any has no key.

use isdb_text::InitialState::{Caption, Si};
use isdb_text::ffi::{self, Call, ISSUE_NUMBERS};
use isdb_text::{
    DecodeOptions, InitialState, Measured, Reason, Refused, WidthMode, clean_with, decode_with,
    encode, key_with, measure_with,
};

/// Strings, each with its text and how many private-use characters that has.
const STRINGS: [(InitialState, &[u8], &str, usize); 14] = [
    (Si, &[], "", 0),
    (Si, &[0xA2], "あ", 0),
    // 92-26 and 92-27 among kana.
    (Si, &[0x7C, 0x3A], "\u{E290}", 1),
    (
        Si,
        &[0xA2, 0x7C, 0x3A, 0xA4, 0x7C, 0x3B],
        "あ\u{E290}い\u{E291}",
        2,
    ),
    // From the additional symbols, invoked and behind SS2; 90-48 is none.
    (Si, &[0x1B, 0x24, 0x3B, 0x7C, 0x3A], "\u{E290}", 1),
    (
        Si,
        &[0x1B, 0x24, 0x2A, 0x3B, 0x19, 0x7C, 0x3A],
        "\u{E290}",
        1,
    ),
    (Si, &[0x1B, 0x24, 0x3B, 0x7A, 0x50], "\u{1F14A}", 0),
    // Each repeat; RPC to the end of the line, with its issue, is no repeat.
    (Si, &[0x98, 0x42, 0x7C, 0x3A], "\u{E290}\u{E290}", 2),
    (Si, &[0x98, 0x40, 0x7C, 0x3A], "\u{E290}", 1),
    // The mark that waits is none.
    (
        Si,
        &[0x21, 0x2D, 0x98, 0x42, 0x7C, 0x3A],
        "\u{E290}\u{E290}\u{301}",
        2,
    ),
    // U+FFFD is none, once or three times.
    (Si, &[0x29, 0x21], "\u{FFFD}", 0),
    (
        Si,
        &[0x98, 0x43, 0x29, 0x21, 0x7C, 0x3A],
        "\u{FFFD}\u{FFFD}\u{FFFD}\u{E290}",
        1,
    ),
    // A macro's body, that is called twice; one that is read as it is defined.
    (
        Caption,
        &[
            0x95, 0x40, 0x21, 0x7C, 0x3A, 0x95, 0x4F, 0x1D, 0x21, 0x1D, 0x21,
        ],
        "\u{E290}\u{E290}",
        2,
    ),
    (
        Caption,
        &[0x95, 0x41, 0x21, 0x7C, 0x3A, 0x95, 0x4F],
        "\u{E290}",
        1,
    ),
];

fn refused<T>(number: u32) -> Result<T, Refused> {
    Err(Refused { number, place: 0 })
}

#[test]
fn counted_and_without_key() {
    for width in [WidthMode::CharacterSize, WidthMode::AnnexE] {
        for (initial, bytes, text, private_use) in STRINGS {
            let options = DecodeOptions { initial, width };
            let read = decode_with(bytes, &options);
            assert_eq!(read.text, text, "{bytes:02X?}");
            assert_eq!(read.private_use, private_use, "{bytes:02X?}");
            let key = match (read.issues.is_empty(), private_use) {
                (false, _) => refused(10),
                (true, 0) => Ok(text.into()),
                (true, _) => refused(11),
            };
            assert_eq!(key_with(bytes, &options), key, "{bytes:02X?}");
        }
    }
}

/// More than the first buffers hold: 8 is not the answer, also of a key.
#[test]
fn many() {
    let options = DecodeOptions::default();
    let bytes = [0x98, 0x7F, 0x7C, 0x3A].repeat(100);
    let read = decode_with(&bytes, &options);
    assert_eq!(read.text, "\u{E290}".repeat(6_300));
    assert_eq!(read.private_use, 6_300);
    assert_eq!(key_with(&bytes, &options), refused(11));
}

/// A private-use character is no issue, and takes its room.
#[test]
fn clean_and_measured() {
    let (bytes, options) = ([0x98, 0x42, 0x7C, 0x3A], DecodeOptions::default());
    let measured = Measured {
        text: 6,
        ..Measured::default()
    };
    assert_eq!(clean_with(&bytes, &options), Ok(true));
    assert_eq!(measure_with(&bytes, &options), Ok(measured));
}

/// They are coded as ever, and counted when the coding is read.
#[test]
fn coded() {
    let text = "あ\u{E290}い\u{E291}";
    let read = encode(text).unwrap().decode();
    assert_eq!((read.text.as_str(), read.private_use), (text, 2));
    assert!(encode("\u{E000}").is_err());
}

#[test]
fn reasons() {
    let options = DecodeOptions::default();
    let refused = |title: &[u8]| key_with(title, &options).unwrap_err();
    assert_eq!(refused(&[0x7C; 65_536]).reason(), Some(Reason::TooLong));
    assert_eq!(
        refused(&[0x7C, 0x3A, 0xA0]).reason(),
        Some(Reason::HasIssues)
    );
    assert_eq!(refused(&[0x7C, 0x3A]).reason(), Some(Reason::PrivateUse));
    assert_eq!(refused(&[0x7C, 0x3A]).to_string(), "refused 11 0");
    let words = "the title's text has a private-use character";
    assert_eq!(Reason::PrivateUse.to_string(), words);
}

/// A call with a lent table.
fn call<'a>(cells: &'a [u16], input: &'a [u8]) -> Call<'a> {
    Call {
        cells,
        initial: 0,
        width: 0,
        input,
    }
}

/// A table that is empty but for a character in a cell.
fn table(row: u8, cell: u8, character: u16) -> Vec<u16> {
    let mut cells = vec![0; 94 * 94];
    cells[94 * (usize::from(row) - 1) + usize::from(cell) - 1] = character;
    cells
}

/// The ends, and what is nearest to them: U+D800 to U+DFFF are in no table.
#[test]
fn the_ends() {
    let counted = [
        (0xD7FF, 0),
        (0xE000, 1),
        (0xE001, 1),
        (0xF8FE, 1),
        (0xF8FF, 1),
        (0xF900, 0),
        (0xFFFD, 0),
    ];
    for (row, cell) in [(1, 1), (2, 1), (3, 1), (8, 94), (16, 1), (84, 94)] {
        for (character, count) in counted {
            let (cells, code) = (table(row, cell, character), [row + 0x20, cell + 0x20]);
            assert_eq!(decoded(&cells, &code), [0, 3, 0, 0, count]);
            let thrice = [0x98, 0x43, code[0], code[1]];
            assert_eq!(decoded(&cells, &thrice), [0, 9, 0, 0, 3 * count]);
            let number = if count == 0 { 0 } else { 11 };
            assert_eq!(ffi::key(call(&cells, &code), &mut [0; 3], &mut []), number);
        }
    }
}

/// Every other character of a run.
#[test]
fn in_a_run() {
    let mut cells = table(16, 1, 0x4E00);
    cells[94 * 15 + 1] = 0xE000;
    let run = [0x30, 0x21, 0x30, 0x22].repeat(100);
    assert_eq!(decoded(&cells, &run), [0, 600, 0, 0, 100]);
}

/// The counts of a string that is decoded without issue.
fn decoded(cells: &[u16], input: &[u8]) -> [usize; 5] {
    let mut counts = [7; 5];
    let number = ffi::decode(call(cells, input), &mut [0; 600], &mut [], &mut counts);
    assert_eq!(number, 0);
    counts
}

/// Of six bytes and an issue: refused with 8 or 9 all counts are 0, and a slice gets as many as it
/// has room for. Measuring has the first four.
#[test]
fn counts() {
    let (cells, input) = ([0; 94 * 94], [0x98, 0x42, 0x7C, 0x3A, 0xA0]);
    let decode = |text: usize, issues: usize, room: usize| {
        let (mut text, mut issues) = (vec![0xAA; text], vec![7; ISSUE_NUMBERS * issues]);
        let mut counts = [7; 6];
        let lent = &mut counts[..room];
        let number = ffi::decode(call(&cells, &input), &mut text, &mut issues, lent);
        (number, counts)
    };
    assert_eq!(decode(6, 1, 6), (0, [0, 6, 1, 0, 2, 7]));
    assert_eq!(decode(6, 1, 5), (0, [0, 6, 1, 0, 2, 7]));
    assert_eq!(decode(6, 1, 4), (0, [0, 6, 1, 0, 7, 7]));
    assert_eq!(decode(6, 1, 0), (0, [7; 6]));
    assert_eq!(decode(5, 1, 5), (8, [0, 0, 0, 0, 0, 7]));
    assert_eq!(decode(6, 0, 5), (9, [0, 0, 0, 0, 0, 7]));
    let mut counts = [7; 6];
    assert_eq!(ffi::measure(call(&cells, &input), &mut counts), 0);
    assert_eq!(counts, [0, 6, 1, 0, 7, 7]);
}

/// U+E290 alone, and before あ with an issue, in room for the text and in a byte less.
#[test]
fn eight_before_ten_before_eleven() {
    let (cells, input) = ([0; 94 * 94], [0x7C, 0x3A, 0x24, 0xA2]);
    let refused = |input: &[u8], room: usize| {
        let (mut key, mut counts) = (vec![0xAA; room], [7; 3]);
        let number = ffi::key(call(&cells, input), &mut key, &mut counts);
        assert_eq!((key, counts), (vec![0; room], [0; 3]));
        number
    };
    assert_eq!(refused(&input[..2], 2), 8);
    assert_eq!(refused(&input[..2], 3), 11);
    assert_eq!(refused(&input, 5), 8);
    assert_eq!(refused(&input, 6), 10);
}
