//! The model's reading against the Rust's.

use oracle::reading::{Issue, Reading};

use crate::difference::digits;
use crate::{model, private_use};

/// In what the model differs from the Rust, if in anything. Of an issue these are the first four
/// numbers: the Rust has no position. Nor does it count private-use characters: they are counted in
/// its text.
pub fn fault(model: &model::Reading, rust: &Reading, input: &[u8]) -> Option<&'static str> {
    if model.text != rust.text.as_bytes() {
        return Some("the texts of model and Rust");
    }
    if model.private_use() != private_use::count(&rust.text) {
        return Some("the private-use characters of model and Rust");
    }
    if model.issues.len() != rust.issues.len() {
        return Some("the issues' number of model and Rust");
    }
    let same = model.issues.iter().zip(&rust.issues).all(|(m, r)| same_issue(*m, r, input));
    if same { None } else { Some("the issues of model and Rust") }
}

/// Of an unknown escape the Rust has the bytes and not the start.
fn same_issue(model: model::Issue, rust: &Issue, input: &[u8]) -> bool {
    let [offset, kind, first, second, _] = model;
    let fields = match kind {
        1 => {
            let escape = input.get(first as usize..(first + second) as usize);
            escape == Some(&rust.escape[..]) && rust.fields == [0, second]
        }
        _ => rust.fields == [first, second],
    };
    (offset, kind) == (rust.offset, rust.kind) && fields
}

/// The Rust's reading in words.
pub fn words(rust: &Reading) -> String {
    let issues = rust.issues.iter().map(|i| {
        let [first, second] = i.fields;
        format!(" {},{},{first},{second}{}", i.offset, i.kind, bytes(&i.escape))
    });
    format!("{}{}", digits(rust.text.as_bytes()), issues.collect::<String>())
}

/// An unknown escape's bytes, if any.
fn bytes(escape: &[u8]) -> String {
    if escape.is_empty() { String::new() } else { format!(",{}", digits(escape)) }
}
