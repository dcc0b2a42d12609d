//! One text, arranged by several stations: one reading, one key, one place in a catalogue.

use isdb_text::{
    Catalogue, DecodeOptions, EncodeOptions, InitialState, WidthMode, clean_with, code_with,
    decode_with, key_with,
};

const TEXT: &str = "ＮＨＫニュース 7";
const KEY: &str = "NHKニュース7";

/// Codings of it by hand, each from another idea of what is brief or safe.
const CODINGS: [&[u8]; 5] = [
    // LS1 for the letters, LS3R for katakana, MSZ for the space and the figure.
    b"\x0E\x4E\x48\x4B\x1B\x7C\xCB\xE5\xF9\xB9\x89\x20\x37",
    // All sets designated anew, NSZ first, controls at the end.
    b"\x8A\x1B\x28\x4A\x0F\x4E\x48\x4B\x1B\x29\x31\x0E\x4B\x65\x79\x39\x89\x20\x0F\x37\x8A\x1B\x6F",
    // Alphanumeric in G2, single-shifted in both halves; katakana in G3, too.
    b"\x1B\x2A\x4A\x19\x4E\x19\xC8\x19\x4B\x1D\x4B\x1D\xE5\x1D\xF9\x1D\x39\x89\x20\x19\xB7",
    // DRCS, mosaic and macro sets where no character needs them.
    b"\x1B\x28\x20\x41\x0E\x4E\x48\x4B\x1B\x2A\x32\x1B\x28\x31\x0F\x4B\x65\x79\x39\x1B\x2B\x20\x70\
      \x89\x20\x0E\x37",
    // Letters by the Kanji set, the long vowel by the Hiragana set; sizes at every turn.
    b"\x89\x8A\x23\x4E\x23\x48\x23\x4B\x25\x4B\x25\x65\xF9\x25\x39\x89\x8A\x89\x20\x8A\x89\x0E\x37",
];

/// As the codings were made: under SI, by the size in effect.
fn options() -> DecodeOptions {
    DecodeOptions::default()
}

#[test]
fn read_as_one_text() {
    for coding in CODINGS {
        let read = decode_with(coding, &options());
        assert_eq!(read.text, TEXT, "{coding:02X?}");
        assert!(read.issues.is_empty());
        assert_eq!(read.private_use, 0);
        assert!(clean_with(coding, &options()).unwrap());
        assert_eq!(key_with(coding, &options()).unwrap(), KEY);
    }
}

/// None is shorter than the coding of `code_with` by more than its gap.
#[test]
fn within_the_gap() {
    let coded = code_with(TEXT, &EncodeOptions::default()).unwrap();
    for coding in CODINGS {
        assert!(coded.bytes.0.len() <= coding.len() + coded.gap);
    }
}

#[test]
fn found_together() {
    let mut catalogue = Catalogue::new();
    for (number, coding) in (10..).zip(CODINGS) {
        assert_eq!(catalogue.add(coding, number, &options()).unwrap(), KEY);
    }
    let found = catalogue.find(KEY);
    assert_eq!((found.entries, found.smallest), (CODINGS.len(), Some(10)));
    assert_eq!(catalogue.distinct(), 1);
}

/// The options must be those of the coding: with the start of captions LS3R invokes the macro set.
#[test]
fn under_its_own_options() {
    let captions = DecodeOptions {
        initial: InitialState::Caption,
        width: WidthMode::CharacterSize,
    };
    assert_ne!(decode_with(CODINGS[0], &captions).text, TEXT);
}

/// U+E290 has no key, however it is sent.
#[test]
fn both_refused() {
    for coding in [&b"\x7C\x3A"[..], b"\x1B\x24\x2A\x3B\x19\xFC\xBA\x89"] {
        assert_eq!(decode_with(coding, &options()).text, "\u{E290}");
        assert_eq!(key_with(coding, &options()).unwrap_err().number, 11);
    }
}
