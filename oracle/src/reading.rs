//! `decode_with` in the numbers of 01.

use isdb_text::{IssueKind, decode_with};

use crate::options::Options;
use crate::sets;

/// What reading gives.
#[derive(Debug, Clone, PartialEq, Eq)]
pub struct Reading {
    pub text: String,
    pub issues: Vec<Issue>,
}

/// One issue. Of an unknown escape the Rust gives the bytes and not the start,
/// so the first field is 0 there, and the second is the length.
#[derive(Debug, Clone, PartialEq, Eq)]
pub struct Issue {
    pub offset: u32,
    pub kind: u32,
    pub fields: [u32; 2],
    /// The bytes of an unknown escape, else empty.
    pub escape: Vec<u8>,
}

/// Reads `bytes`.
pub fn read(options: Options, bytes: &[u8]) -> Reading {
    let decoded = decode_with(bytes, &options.into());
    let issues = decoded.issues.into_iter().map(|i| issue(i.offset, i.kind)).collect();
    Reading { text: decoded.text, issues }
}

fn issue(offset: usize, kind: IssueKind) -> Issue {
    let (number, first, second) = numbers(&kind);
    let escape = match kind {
        IssueKind::UnknownEscape(bytes) => bytes,
        _ => Vec::new(),
    };
    Issue { offset: offset as u32, kind: number, fields: [first, second], escape }
}

/// Kind, first and second field.
fn numbers(kind: &IssueKind) -> (u32, u32, u32) {
    use IssueKind as K;
    match *kind {
        K::UnknownEscape(ref bytes) => (1, 0, bytes.len() as u32),
        K::UndefinedControl(code) => (2, code.into(), 0),
        K::MalformedControl(code) => (3, code.into(), 0),
        K::Truncated => (4, 0, 0),
        K::UndefinedCode { set, code } => (5, sets::number(set), code.into()),
        K::UnsupportedCode { set, code } => (6, sets::number(set), code.into()),
        K::Drcs { set, code } => (7, set.into(), code.into()),
        K::Mosaic { set, code } => (8, sets::number(set), code.into()),
        K::UndefinedMacro(code) => (9, code.into(), 0),
        K::MacroLimit => (10, 0, 0),
        K::LoneSingleShift => (11, 0, 0),
        K::DanglingNonSpacing => (12, 0, 0),
        K::RepeatToEndOfLine => (13, 0, 0),
        ref other => panic!("01 has no number for {other:?}"),
    }
}
