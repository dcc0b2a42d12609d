//! Where issues are in the text.

use isdb_text::InitialState::{Caption, Si};
use isdb_text::{DecodeOptions, InitialState, decode_with};

/// An issue's offset and position.
type Place = (usize, usize);

/// Strings, each with its text and the places of its issues.
const STRINGS: [(InitialState, &[u8], &str, &[Place]); 10] = [
    (Si, &[0x24, 0xA2], "あ", &[(0, 0)]),
    (Si, &[0xA2, 0xA4, 0x1B], "あい", &[(2, 6)]),
    // U+FFFD, once and three times, behind あ.
    (Si, &[0xA2, 0x29, 0x21, 0xA4], "あ\u{FFFD}い", &[(1, 3)]),
    (
        Si,
        &[0xA2, 0x98, 0x43, 0x29, 0x21, 0xA0],
        "あ\u{FFFD}\u{FFFD}\u{FFFD}",
        &[(3, 3), (5, 12)],
    ),
    // Marks before a newline, and at the very end.
    (
        Si,
        &[0xA2, 0x21, 0x2D, 0x21, 0x2E, 0x0D, 0xA4],
        "あ\u{301}\u{300}\nい",
        &[(1, 3)],
    ),
    (Si, &[0xA2, 0x21, 0x2D], "あ\u{301}", &[(1, 3)]),
    // A mark waits while an issue is reported; it stands behind い, and behind U+FFFD.
    (
        Si,
        &[0xA2, 0x21, 0x2D, 0xA0, 0xA4],
        "あい\u{301}",
        &[(3, 3)],
    ),
    (
        Si,
        &[0xA2, 0x21, 0x2D, 0x29, 0x21, 0xA0],
        "あ\u{FFFD}\u{301}",
        &[(3, 3), (5, 8)],
    ),
    // A macro's body, あ and a code without a character, that is called twice; a mark of a body
    // that waits to the end.
    (
        Caption,
        &[
            0x95, 0x40, 0x21, 0xA2, 0x29, 0x21, 0x95, 0x4F, 0x1D, 0x21, 0x1D, 0x21,
        ],
        "あ\u{FFFD}あ\u{FFFD}",
        &[(8, 3), (10, 9)],
    ),
    (
        Caption,
        &[0xA4, 0x95, 0x41, 0x21, 0xA2, 0x21, 0x2D, 0x95, 0x4F],
        "いあ\u{301}",
        &[(1, 6)],
    ),
];

#[test]
fn positions() {
    for (initial, bytes, text, places) in STRINGS {
        let options = DecodeOptions {
            initial,
            ..DecodeOptions::default()
        };
        let read = decode_with(bytes, &options);
        assert_eq!(read.text, text, "{bytes:02X?}");
        let found: Vec<Place> = read.issues.iter().map(|i| (i.offset, i.position)).collect();
        assert_eq!(found, places, "{bytes:02X?}");
        for issue in &read.issues {
            assert!(read.text.is_char_boundary(issue.position), "{bytes:02X?}");
        }
    }
}

/// More issues than the first buffer holds, one behind each kana.
#[test]
fn positions_of_many() {
    let read = decode_with(&[0xA2, 0xA0].repeat(1_000), &DecodeOptions::default());
    for (n, issue) in (1..).zip(&read.issues) {
        assert_eq!((issue.offset, issue.position), (2 * n - 1, 3 * n));
    }
    assert_eq!((read.issues.len(), read.text.len()), (1_000, 3_000));
}
