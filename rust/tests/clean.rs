//! A title is clean exactly when its whole reading has no issue.

use isdb_text::InitialState::{Caption, Si};
use isdb_text::{
    DecodeOptions, InitialState, Refused, WidthMode, clean_with, decode_with, encode, key_with,
};

/// Titles, and whether they are clean.
const TITLES: [(InitialState, &[u8], bool); 12] = [
    (Si, &[], true),
    (Si, &[0x1B, 0x7C, 0xB9, 0xC6, 0xEC, 0xAA], true),
    // A mark before its base, and a repeat that waits for nothing.
    (Si, &[0x21, 0x2D, 0xA2], true),
    (Si, &[0xA2, 0x98, 0x43], true),
    (Si, &[0xA2, 0x21, 0x2D], false),
    // An issue at the beginning, in the middle, at the end.
    (Si, &[0xA0, 0xA2], false),
    (Si, &[0xA2, 0x29, 0x21, 0xA4], false),
    (Si, &[0xA2, 0x1B], false),
    (Si, &[0x24, 0xA2], false),
    // A macro's body: あ, an undefined control, a call of itself.
    (
        Caption,
        &[0x95, 0x40, 0x21, 0xA2, 0x95, 0x4F, 0x1D, 0x21],
        true,
    ),
    (
        Caption,
        &[0x95, 0x40, 0x21, 0xA0, 0x95, 0x4F, 0x1D, 0x21, 0xA2],
        false,
    ),
    (Caption, &[0x95, 0x41, 0x21, 0x1D, 0x21, 0x95, 0x4F], false),
];

#[test]
fn clean_or_not() {
    for width in [WidthMode::CharacterSize, WidthMode::AnnexE] {
        for (initial, title, clean) in TITLES {
            let options = DecodeOptions { initial, width };
            assert_eq!(clean_with(title, &options), Ok(clean), "{title:02X?}");
            let read = decode_with(title, &options);
            assert_eq!(read.issues.is_empty(), clean, "{title:02X?}");
            assert_eq!(key_with(title, &options).is_ok(), clean, "{title:02X?}");
        }
    }
}

#[test]
fn a_coding_is_clean() {
    let coded = encode("ニュース TEST！ 7:00").unwrap();
    assert_eq!(clean_with(&coded.0, &DecodeOptions::default()), Ok(true));
}

#[test]
fn the_longest() {
    let options = DecodeOptions::default();
    let refused = Refused {
        number: 3,
        place: 0,
    };
    assert_eq!(clean_with(&[0xA2; 65_535], &options), Ok(true));
    assert_eq!(clean_with(&[0xA2; 65_536], &options), Err(refused));
}
