//! Eight-unit code to text.

use std::error::Error;
use std::fmt;

use crate::buffers::{ISSUE_ROOM, more_room, most_room, text_room, written};
use crate::cells;
use crate::ffi::{self, Call, ISSUE_NUMBERS};
use crate::measure::measure_with;
use crate::sets::{GraphicSet, InitialState};

/// How the width of alphanumerics and SP goes over into Unicode.
#[derive(Debug, Clone, Copy, PartialEq, Eq, Hash, Default)]
pub enum WidthMode {
    /// By the size in effect: half-width under Small, Middle and SZX 60, else full-width.
    #[default]
    CharacterSize,
    /// Always half-width (Annex E.4).
    AnnexE,
}

impl WidthMode {
    pub(crate) fn number(self) -> u32 {
        match self {
            WidthMode::CharacterSize => 0,
            WidthMode::AnnexE => 1,
        }
    }
}

/// Options of decoding.
#[derive(Debug, Clone, Copy, PartialEq, Eq, Hash, Default)]
pub struct DecodeOptions {
    pub initial: InitialState,
    pub width: WidthMode,
}

impl DecodeOptions {
    pub(crate) fn call<'a>(&self, bytes: &'a [u8]) -> Call<'a> {
        cells::call(self.initial, self.width, bytes)
    }
}

/// A decoded string.
#[derive(Debug, Clone, Default, PartialEq, Eq)]
pub struct Decoded {
    pub text: String,
    /// What could not be read exactly, in order of report.
    pub issues: Vec<Issue>,
    /// How many characters of [`Decoded::text`] are private-use ones, U+E000 to U+F8FF, each repeat
    /// counted. Most screens show them as boxes. U+FFFD, which stands for a code without a
    /// character, is none. isdb-text has no such field.
    pub private_use: usize,
}

/// Something that could not be read exactly.
#[derive(Debug, Clone, PartialEq, Eq)]
pub struct Issue {
    /// The byte where the code begins; inside a macro body that of the outermost call.
    pub offset: usize,
    pub kind: IssueKind,
    /// The bytes of [`Decoded::text`] that were written when the issue was reported. The text up
    /// to there came before the issue; U+FFFD or the marks that the issue brings stand behind it,
    /// as do marks that still waited for their character. Always a character boundary, and never
    /// less than the position of the issue before. Of a rest, what stands before its bookmark
    /// counts too ([`Bookmarks::resume`](crate::Bookmarks::resume)). isdb-text has no such field.
    pub position: usize,
}

impl fmt::Display for Issue {
    fn fmt(&self, f: &mut fmt::Formatter<'_>) -> fmt::Result {
        write!(f, "@{}: {:?}", self.offset, self.kind)
    }
}

/// What an issue is about.
#[derive(Debug, Clone, PartialEq, Eq)]
#[non_exhaustive]
pub enum IssueKind {
    /// An escape sequence that no table lists: its bytes.
    UnknownEscape(Vec<u8>),
    /// A control code that the tables leave blank.
    UndefinedControl(u8),
    /// A control code with parameters that no table lists.
    MalformedControl(u8),
    /// The input or the macro body ended within a code or a macro's definition, or a two-byte
    /// character's second byte was not in the half of its first (24 A2).
    Truncated,
    /// A code that is blank in its set; U+FFFD stands for it.
    UndefinedCode { set: GraphicSet, code: u16 },
    /// A code of a set that is not mapped; U+FFFD stands for it.
    UnsupportedCode { set: GraphicSet, code: u16 },
    /// A character of DRCS; U+FFFD stands for it.
    Drcs { set: u8, code: u16 },
    /// A mosaic; nothing stands for it.
    Mosaic { set: GraphicSet, code: u8 },
    /// A macro that is neither defined nor built in.
    UndefinedMacro(u8),
    /// A macro that is nested too deep or costs too much.
    MacroLimit,
    /// A single shift before no character.
    LoneSingleShift,
    /// Marks without a base.
    DanglingNonSpacing,
    /// RPC with count 0.
    RepeatToEndOfLine,
}

/// A refusal: the number of the first question that fails, and its place. [`Refused::reason`] says
/// it in words.
#[derive(Debug, Clone, Copy, PartialEq, Eq)]
pub struct Refused {
    pub number: u32,
    pub place: usize,
}

impl Refused {
    /// The first count is the place.
    pub(crate) fn new(number: u32, counts: &[usize]) -> Refused {
        Refused {
            number,
            place: counts[0],
        }
    }
}

impl fmt::Display for Refused {
    fn fmt(&self, f: &mut fmt::Formatter<'_>) -> fmt::Result {
        write!(f, "refused {} {}", self.number, self.place)
    }
}

impl Error for Refused {}

/// Decodes a string. Panics on more than 65,535 bytes; [`try_decode_with`] refuses them.
///
/// ```
/// use isdb_text::{DecodeOptions, IssueKind, decode_with};
/// let read = decode_with(&[0x24, 0xA2], &DecodeOptions::default());
/// assert_eq!(read.text, "あ");
/// assert_eq!(read.issues[0].kind, IssueKind::Truncated);
/// // あ, a code without a character, い
/// let read = decode_with(&[0xA2, 0x29, 0x21, 0xA4], &DecodeOptions::default());
/// let (before, after) = read.text.split_at(read.issues[0].position);
/// assert_eq!((before, after), ("あ", "\u{FFFD}い"));
/// // a private-use character, twice
/// let read = decode_with(&[0x98, 0x42, 0x7C, 0x3A], &DecodeOptions::default());
/// assert_eq!((read.text.as_str(), read.private_use), ("\u{E290}\u{E290}", 2));
/// ```
pub fn decode_with(bytes: &[u8], opts: &DecodeOptions) -> Decoded {
    try_decode_with(bytes, opts).expect("at most 65,535 bytes")
}

/// Decodes a string of at most 65,535 bytes, else refuses it with 3.
///
/// ```
/// use isdb_text::{DecodeOptions, try_decode_with};
/// let refused = try_decode_with(&[0; 65_536], &DecodeOptions::default()).unwrap_err();
/// assert_eq!(refused.number, 3);
/// ```
pub fn try_decode_with(bytes: &[u8], opts: &DecodeOptions) -> Result<Decoded, Refused> {
    let call = opts.call(bytes);
    decode_by(bytes, opts, |text, issues, counts| {
        ffi::decode(call, text, issues, counts)
    })
}

/// What a call decodes of a string: where the first buffers are too small, in those that the whole
/// string takes. A call that goes on from other numbers than a reading has can take larger ones.
pub(crate) fn decode_by(
    bytes: &[u8],
    opts: &DecodeOptions,
    call: impl Fn(&mut [u8], &mut [u32], &mut [usize]) -> u32,
) -> Result<Decoded, Refused> {
    let mut first = [0; ISSUE_NUMBERS * ISSUE_ROOM];
    let answer = decode_in(text_room(bytes), &mut first, bytes, &call);
    let Err(Refused { number: 8 | 9, .. }) = answer else {
        return answer;
    };
    let measured = measure_with(bytes, opts)?;
    let (mut text, mut issues, most) = (measured.text, measured.issues, most_room(bytes));
    loop {
        match decode_in(text, &mut vec![0; ISSUE_NUMBERS * issues], bytes, &call) {
            Err(Refused { number: 8, .. }) if text < most => text = more_room(text).min(most),
            Err(Refused { number: 9, .. }) if issues < most => issues = more_room(issues),
            answer => return answer,
        }
    }
}

/// What a call decodes of a string with room for so many bytes of text, and for the issues that
/// this buffer holds.
fn decode_in(
    text: usize,
    issues: &mut [u32],
    bytes: &[u8],
    call: impl Fn(&mut [u8], &mut [u32], &mut [usize]) -> u32,
) -> Result<Decoded, Refused> {
    let (mut text, mut counts) = (vec![0; text], [0; 5]);
    let number = call(&mut text, issues, &mut counts);
    if number != 0 {
        return Err(Refused::new(number, &counts));
    }
    let [_, length, count, _, private_use] = counts;
    let issues = issues.chunks_exact(ISSUE_NUMBERS).take(count);
    let issues = issues.map(|numbers| issue(bytes, numbers.try_into().expect("a whole issue")));
    Ok(Decoded {
        text: written(text, length),
        issues: issues.collect(),
        private_use,
    })
}

/// An issue from its numbers.
fn issue(bytes: &[u8], numbers: [u32; ISSUE_NUMBERS]) -> Issue {
    let [offset, kind, first, second, position] = numbers;
    let (set, code) = (GraphicSet::from_number(first), second as u16);
    let kind = match kind {
        1 => IssueKind::UnknownEscape(bytes[first as usize..][..second as usize].to_vec()),
        2 => IssueKind::UndefinedControl(first as u8),
        3 => IssueKind::MalformedControl(first as u8),
        4 => IssueKind::Truncated,
        5 => IssueKind::UndefinedCode { set, code },
        6 => IssueKind::UnsupportedCode { set, code },
        7 => IssueKind::Drcs {
            set: first as u8,
            code,
        },
        8 => IssueKind::Mosaic {
            set,
            code: second as u8,
        },
        9 => IssueKind::UndefinedMacro(first as u8),
        10 => IssueKind::MacroLimit,
        11 => IssueKind::LoneSingleShift,
        12 => IssueKind::DanglingNonSpacing,
        _ => IssueKind::RepeatToEndOfLine,
    };
    Issue {
        offset: offset as usize,
        kind,
        position: position as usize,
    }
}
