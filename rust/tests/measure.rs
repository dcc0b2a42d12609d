//! What is measured is what the whole reading has.

use isdb_text::InitialState::{Caption, Si};
use isdb_text::{
    DecodeOptions, InitialState, Measured, Refused, WidthMode, decode_with, encode, measure_with,
};

/// Strings, and what they charge.
const STRINGS: [(InitialState, &[u8], usize); 11] = [
    (Si, &[], 0),
    (Si, &[0x1B, 0x7C, 0xB9, 0xC6, 0xEC, 0xAA], 0),
    // A letter and a space, as wide as the options say.
    (Si, &[0x0E, 0x41, 0x20], 0),
    // A mark before its base, before a newline, before the end.
    (Si, &[0x21, 0x2D, 0xA2], 0),
    (Si, &[0xA2, 0x21, 0x2D, 0x0D], 0),
    (Si, &[0xA2, 0x21, 0x2D], 0),
    // A code without a character, three times; a repeat that waits for nothing.
    (Si, &[0xA2, 0x98, 0x43, 0x29, 0x21, 0xA0], 0),
    (Si, &[0xA2, 0x98, 0x43], 0),
    // A macro's body of three bytes, called twice; a built-in one; one that calls itself, four
    // deep.
    (
        Caption,
        &[
            0x95, 0x40, 0x21, 0xA2, 0x29, 0x21, 0x95, 0x4F, 0x1D, 0x21, 0x1D, 0x21,
        ],
        6,
    ),
    (Caption, &[0x1D, 0x61, 0x0E, 0x22], 16),
    (Caption, &[0x95, 0x41, 0x21, 0x1D, 0x21, 0x95, 0x4F], 8),
];

#[test]
fn as_decoded() {
    for width in [WidthMode::CharacterSize, WidthMode::AnnexE] {
        for (initial, bytes, charged) in STRINGS {
            let options = DecodeOptions { initial, width };
            let read = decode_with(bytes, &options);
            let measured = Measured {
                text: read.text.len(),
                issues: read.issues.len(),
                charged,
            };
            assert_eq!(measure_with(bytes, &options), Ok(measured), "{bytes:02X?}");
        }
    }
}

#[test]
fn a_coding_takes_its_text() {
    let text = "ニュース TEST！ 7:00";
    let coded = encode(text).unwrap();
    let measured = measure_with(&coded.0, &DecodeOptions::default()).unwrap();
    let expected = Measured {
        text: text.len(),
        ..Measured::default()
    };
    assert_eq!(measured, expected);
}

#[test]
fn the_longest() {
    let options = DecodeOptions::default();
    let measured = Measured {
        text: 3 * 65_535,
        ..Measured::default()
    };
    let refused = Refused {
        number: 3,
        place: 0,
    };
    assert_eq!(measure_with(&[0xA2; 65_535], &options), Ok(measured));
    assert_eq!(measure_with(&[0xA2; 65_536], &options), Err(refused));
}
