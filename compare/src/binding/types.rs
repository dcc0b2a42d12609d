//! The crate's types and isdb-text's: what they share bears the same names.

use ours::{
    AribString, DecodeOptions, Decoded, EncodeError, EncodeOptions, GraphicSet, InitialState,
    Issue, IssueKind, Reason, WidthMode,
};

use crate::call::Call;
use crate::{model, private_use};

/// The call's options.
pub fn decode_options(call: &Call) -> DecodeOptions {
    let initial = [InitialState::Si, InitialState::Caption][call.initial as usize];
    let width = [WidthMode::CharacterSize, WidthMode::AnnexE][call.width as usize];
    DecodeOptions { initial, width }
}

pub fn encode_options(call: &Call) -> EncodeOptions {
    let DecodeOptions { initial, width } = decode_options(call);
    EncodeOptions { initial, width }
}

/// isdb-text's reading in the crate's types. isdb-text has no positions: they are the model's,
/// which has as many issues. Nor does it count private-use characters: they are counted in its
/// text.
pub fn decoded(rust: isdb_text::Decoded, model: &model::Reading) -> Decoded {
    let issue = |(rust, &[.., position]): (isdb_text::Issue, &model::Issue)| Issue {
        offset: rust.offset,
        kind: kind(rust.kind),
        position: position as usize,
    };
    let issues = rust.issues.into_iter().zip(&model.issues).map(issue);
    let private_use = private_use::count(&rust.text);
    Decoded { text: rust.text, issues: issues.collect(), private_use }
}

/// Why a refusal has this number.
pub fn reason(number: u32) -> Option<Reason> {
    match number {
        3 => Some(Reason::TooLong),
        10 => Some(Reason::HasIssues),
        11 => Some(Reason::PrivateUse),
        _ => None,
    }
}

/// isdb-text's coding or error in the crate's types.
pub fn coded(
    rust: Result<isdb_text::AribString, isdb_text::EncodeError>,
) -> Result<AribString, EncodeError> {
    rust.map(|bytes| AribString(bytes.0)).map_err(error)
}

fn error(rust: isdb_text::EncodeError) -> EncodeError {
    use isdb_text::EncodeError as E;
    match rust {
        E::Unencodable { index, ch } => EncodeError::Unencodable { index, ch },
        E::NoBase { index, ch } => EncodeError::NoBase { index, ch },
        other => panic!("the crate has no {other:?}"),
    }
}

fn kind(rust: isdb_text::IssueKind) -> IssueKind {
    use isdb_text::IssueKind as K;
    match rust {
        K::UnknownEscape(bytes) => IssueKind::UnknownEscape(bytes),
        K::UndefinedControl(code) => IssueKind::UndefinedControl(code),
        K::MalformedControl(code) => IssueKind::MalformedControl(code),
        K::Truncated => IssueKind::Truncated,
        K::UndefinedCode { set, code } => IssueKind::UndefinedCode { set: named(set), code },
        K::UnsupportedCode { set, code } => IssueKind::UnsupportedCode { set: named(set), code },
        K::Drcs { set, code } => IssueKind::Drcs { set, code },
        K::Mosaic { set, code } => IssueKind::Mosaic { set: named(set), code },
        K::UndefinedMacro(code) => IssueKind::UndefinedMacro(code),
        K::MacroLimit => IssueKind::MacroLimit,
        K::LoneSingleShift => IssueKind::LoneSingleShift,
        K::DanglingNonSpacing => IssueKind::DanglingNonSpacing,
        K::RepeatToEndOfLine => IssueKind::RepeatToEndOfLine,
        other => panic!("the crate has no {other:?}"),
    }
}

/// Defines `named`: the set of the same name.
macro_rules! named {
    ($($name:ident)*) => {
        fn named(rust: isdb_text::GraphicSet) -> GraphicSet {
            match rust {
                isdb_text::GraphicSet::Drcs(n) => GraphicSet::Drcs(n),
                $(isdb_text::GraphicSet::$name => GraphicSet::$name,)*
            }
        }
    };
}

named! {
    Kanji Alphanumeric Hiragana Katakana MosaicA MosaicB MosaicC MosaicD
    ProportionalAlphanumeric ProportionalHiragana ProportionalKatakana JisX0201Katakana
    JisKanjiPlane1 JisKanjiPlane2 AdditionalSymbols Macro
}
