//! The rule of keys on every character, by isdb-text's own tables.

use compare::key::{halfwidth, key};
use isdb_text::tables::{alphanumeric, fullwidth};

/// "every character that `fullwidth` makes from one of the 94 alphanumerics becomes that
/// alphanumeric"
#[test]
fn each_form_becomes_its_alphanumeric() {
    let forms: Vec<_> =
        (0x21..=0x7E).filter_map(alphanumeric).map(|half| (fullwidth(half), half)).collect();
    assert_eq!(forms.len(), 94);
    for c in '\0'..=char::MAX {
        let half = forms.iter().find(|&&(full, _)| full == c).map_or(c, |&(_, half)| half);
        assert_eq!(halfwidth(c), half, "{c:?}");
    }
}

#[test]
fn both_widths_have_one_key() {
    assert_eq!(key("ＮＨＫ　ニュース７：００"), key("NHK ニュース\n7:00"));
    assert_eq!(key("￥～＼"), "\u{A5}~＼");
}
