//! A program of isdb-text's users, unchanged but for the position of an issue that is spelt out.

use isdb_text::{
    AribString, DecodeOptions, EncodeError, EncodeOptions, InitialState, Issue, IssueKind,
    WidthMode, decode_with, encode, encode_with,
};

/// The examples in isdb-text's own documentation.
#[test]
fn examples_of_the_original() {
    let stereo = AribString(vec![0x1b, 0x7c, 0xb9, 0xc6, 0xec, 0xaa]);
    let read = stereo.decode();
    assert_eq!(read.text, "ステレオ");
    assert!(read.issues.is_empty());

    let test = AribString(vec![0x0e, 0x54, 0x45, 0x53, 0x54, 0x21]);
    assert_eq!(test.to_string_lossy(), "ＴＥＳＴ！");

    let bytes = encode("ニュース TEST！ 7:00").unwrap();
    assert_eq!(bytes.decode().text, "ニュース TEST！ 7:00");
}

#[test]
fn options_and_issues() {
    let options = DecodeOptions {
        initial: InitialState::Caption,
        width: WidthMode::AnnexE,
    };
    assert_eq!(decode_with(&[0x0E, 0x41], &options).text, "A");
    let read = decode_with(&[0x1B, 0x24, 0x41, 0xA2], &DecodeOptions::default());
    let unknown = IssueKind::UnknownEscape(vec![0x1B, 0x24, 0x41]);
    assert_eq!(
        read.issues,
        [Issue {
            offset: 0,
            kind: unknown,
            position: 0
        }]
    );
    assert_eq!(read.text, "あ");
}

/// Text, issues, and both that outgrow the first buffers.
#[test]
fn buffers_grow() {
    let repeated = [0x98, 0x7F, 0xA2].repeat(100);
    assert_eq!(
        decode_with(&repeated, &DecodeOptions::default()).text,
        "あ".repeat(6_300)
    );
    let read = decode_with(&[0xFF; 1_000], &DecodeOptions::default());
    assert_eq!(read.issues.len(), 1_000);
    let both = [0x98, 0x7F, 0xA2, 0xA0].repeat(100);
    let read = decode_with(&both, &DecodeOptions::default());
    assert_eq!(read.text, "あ".repeat(6_300));
    assert_eq!(read.issues.len(), 100);
}

/// The first buffers just full, and one byte or one issue past: 4 bytes for each byte of the input
/// and 64, and 64 issues. RPC writes 26 of the characters.
#[test]
fn first_buffers_are_full() {
    let options = DecodeOptions::default();
    let text = |bytes: &[u8]| decode_with(bytes, &options).text;
    assert_eq!(text(&[0x98, 0x5A, 0xA2, 0xA2, 0xA2]), "あ".repeat(28));
    assert_eq!(text(&[0x98, 0x5A, 0xA2, 0xA2]), "あ".repeat(27));
    for count in [63, 64, 65] {
        let read = decode_with(&vec![0xA0; count], &options);
        assert_eq!((read.text.as_str(), read.issues.len()), ("", count));
        assert!(read.issues.iter().map(|issue| issue.offset).eq(0..count));
    }
}

/// A text whose search outgrows the first store.
#[test]
fn store_grows() {
    let text = "漢字かなカナABC ＡＢＣ\n".repeat(20);
    assert_eq!(encode(&text).unwrap().decode().text, text);
}

#[test]
fn errors() {
    let options = EncodeOptions::default();
    let no_base = EncodeError::NoBase {
        index: 0,
        ch: '\u{301}',
    };
    assert_eq!(encode_with("\u{301}", &options), Err(no_base));
    assert_eq!(
        encode_with(&"あ".repeat(2_500), &options),
        Err(EncodeError::TooLong)
    );
}
