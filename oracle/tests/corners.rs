//! Answers of the Rust at the corners of 01, and 01's table of twelve, through the lines
//! of `oracle decode` and `oracle encode`.

use oracle::{hex, request};

/// Options, bytes, the text, the issues.
type Read = (&'static str, &'static str, &'static str, &'static str);
/// Options, text, the coding or refusal.
type Code = (&'static str, &'static str, &'static str);

const SI: &str = "0 0";
const SI_ANNEX_E: &str = "0 1";
const CAPTION: &str = "1 0";

const READING: &[Read] = &[
    // The table of twelve.
    (SI, "0E41", "Ａ", ""),
    (SI, "890E41", "A", ""),
    (SI, "24A2", "あ", "0,4,0,0"),
    (SI, "9843A2", "あああ", ""),
    (SI, "9840A2", "あ", "0,13,0,0"),
    (SI, "212DA2", "あ\u{301}", ""),
    (CAPTION, "1D610E22", "ア", ""),
    (CAPTION, "9541211D21954F", "", "0,10,0,0"),
    // Truncated: a character or single shift uses one byte, a control or escape the rest.
    (SI, "1CA2", "", "0,4,0,0"),
    (SI, "98", "", "0,4,0,0"),
    (SI, "8B", "", "0,4,0,0"),
    (SI, "16", "", "0,4,0,0"),
    (SI, "1B24", "", "0,4,0,0"),
    (SI, "9020", "", "0,4,0,0"),
    (SI, "9D29", "", "0,4,0,0"),
    (SI, "9B30", "", "0,4,0,0"),
    (SI, "954021", "", "0,4,0,0"),
    // Single shifts, in either half.
    (SI, "1B242A42 1924", "", "4,4,0,0"),
    (SI, "1B242A42 19A4A2", "あ", ""),
    (SI, "1B242A42 192422", "あ", ""),
    (SI, "190D", "\n", "0,11,0,0"),
    (SI, "19A0", "", "0,11,0,0 1,2,160,0"),
    (SI, "1919A2", "あ", "0,11,0,0"),
    // A waiting repeat.
    (SI, "98430DA2", "\nあああ", ""),
    (SI, "9843212DA2", "あああ\u{301}", ""),
    (SI, "212D9843A2", "あああ\u{301}", ""),
    (SI, "984324A2", "あああ", "2,4,0,0"),
    (SI, "98439842A2", "ああ", ""),
    (SI, "98439840A2", "あ", "2,13,0,0"),
    (SI, "9843", "", ""),
    // Marks.
    (SI, "212D1B283221A2", "あ\u{301}", "5,8,4,33"),
    (SI, "212D240D", "\u{301}\n", "2,4,0,0 0,12,0,0"),
    // Sizes and the width option.
    (SI, "8B600E41", "A", ""),
    (SI, "8BE00E41", "Ａ", ""),
    (SI_ANNEX_E, "8A0E5C", "¥", ""),
    // TIME and CSI.
    (SI, "9D29A2", "あ", ""),
    (SI, "9D2930A2", "あ", ""),
    (SI, "9BA2", "あ", "0,3,155,0"),
    (SI, "9D1BA2", "あ", "0,3,157,0"),
    // Escapes; an unknown one comes with its bytes.
    (SI, "1BA2", "あ", "0,1,1B"),
    (SI, "1B7FA2", "あ", "0,1,1B"),
    (SI, "1B1B7DA2", "あ", "0,1,1B"),
    (SI, "1B242842", "", "0,1,1B242842"),
    (SI, "1B282040", "", "0,1,1B282040"),
    (SI, "1B24282040 2121", "\u{FFFD}", "5,7,0,8481"),
    // Macros.
    (CAPTION, "9540954F", "", "0,4,0,0"),
    (CAPTION, "9541A1A2954F1D21", "ああ", ""),
    (CAPTION, "954061954F1D610E22", "＂", ""),
    (CAPTION, "9540211B2441954F1D21", "", "8,1,1B2441"),
    (CAPTION, "95402124954F1D2122", "", "6,4,0,0 8,4,0,0"),
    (CAPTION, "954120A2954F", "あ", ""),
    (CAPTION, "954022954F 9541211D211D22954F", "", "5,10,0,0 5,10,0,0"),
    (CAPTION, "9541211D23954F", "", "0,9,35,0"),
    // Cells.
    (SI, "2921", "\u{FFFD}", "0,5,0,10529"),
    (SI, "1B242A39 A9A1", "\u{FFFD}", "4,6,12,10529"),
    (SI, "1B2439 212D213D", "\u{2014}\u{301}", ""),
    (SI, "1B24293B 0E7D3E", "🈔", ""),
];

const CODING: &[Code] = &[
    // The table of twelve.
    (SI, "Ａ", "0E41"),
    (SI, "\u{3000}", "20"),
    (SI, "A", "890E41"),
    (SI, "\u{1}\n\u{301}", "refused 5 2"),
    // Marks before their base; 5 before 6.
    (SI, "あ\u{301}", "212DA2"),
    (SI, "あ\n\u{301}\u{300}", "refused 5 4"),
    (SI, "あ\u{301}\u{1}", "refused 6 5"),
    (SI, "\u{3000}\u{301}", "212D20"),
    // The Rust's table, ties and sizes.
    (SI, "アア", "1D221D22"),
    (SI_ANNEX_E, "A", "890E41"),
    (SI_ANNEX_E, " ", "8920"),
    (SI_ANNEX_E, "\u{3000}", "2121"),
    (SI, "🈔", "7D3E"),
    (SI, "年", "472F"),
    (SI, "\n", "0D"),
    (SI, "", "-"),
];

/// Options, bytes that are not UTF-8, the refusal.
const ILL_FORMED: &[Code] = &[
    (SI, "E38182 E381", "refused 4 3"),
    (SI, "EDA080", "refused 4 0"),
    (SI, "CC81 FF", "refused 4 2"),
];

const BAD: &[&str] = &["", "0", "2 0 41", "0 2 41", "0 0 4", "0 0 4G", "a b", "0 0 -"];

/// Two digits a byte, `-` for none.
fn digits(text: &str) -> String {
    let mut out = String::new();
    hex::push(&mut out, text.as_bytes());
    if out.is_empty() { "-".into() } else { out }
}

#[test]
fn reading() {
    for (options, bytes, text, issues) in READING {
        let answer = request::decode(&format!("{options} {bytes}"));
        assert_eq!(answer, format!("{} {issues}", digits(text)).trim_end(), "{options} {bytes}");
    }
}

#[test]
fn coding() {
    for (options, text, expected) in CODING {
        let mut line = format!("{options} ");
        hex::push(&mut line, text.as_bytes());
        assert_eq!(request::encode(&line), *expected, "{options} {text:?}");
    }
}

#[test]
fn ill_formed() {
    for (options, bytes, expected) in ILL_FORMED {
        assert_eq!(request::encode(&format!("{options} {bytes}")), *expected, "{bytes}");
    }
}

#[test]
fn bad_requests() {
    for line in BAD {
        assert_eq!(request::decode(line), request::BAD, "{line:?}");
        assert_eq!(request::encode(line), request::BAD, "{line:?}");
    }
}
