//! A crate with a fault is found out.
#![cfg(feature = "library")]

mod found;

use compare::binding::{self, CALLS, Calls, Holder, Runs, USUAL};
use compare::call::under_all;
use compare::cells;
use compare::runs::Worker;
use ours::{
    AribString, Coded, Decoded, EncodeError, EncodeOptions, GraphicSet, IssueKind, Measured,
    Reason, Refused,
};

/// The first difference on this input under Si and CharacterSize.
fn read(calls: Calls, input: &[u8]) -> Option<String> {
    let [call, ..] = under_all(cells::rusts(), input);
    Holder::new(calls).read(call).err().map(|difference| difference.to_string())
}

fn code(calls: Calls, text: &str) -> Option<String> {
    let [call, ..] = under_all(cells::rusts(), text.as_bytes());
    Holder::new(calls).code(call).err().map(|difference| difference.to_string())
}

/// あ; a cell without a character; an unknown escape; い.
const INPUT: [u8; 7] = [0xA2, 0x29, 0x21, 0x1B, 0x21, 0x40, 0xA4];

/// The crate with a fault in what it reads.
macro_rules! reading {
    ($($fault:expr,)*) => {
        [$(Calls {
            decode: |bytes, options| {
                let mut found = (CALLS.decode)(bytes, options);
                let fault: fn(&mut Decoded) = $fault;
                fault(&mut found);
                found
            },
            ..CALLS
        }),*]
    };
}

#[test]
fn no_fault() {
    assert_eq!(read(CALLS, &INPUT), None);
    assert_eq!(read(CALLS, &[0xA2, 0x20]), None);
    assert_eq!(code(CALLS, "あA"), None);
    assert_eq!(code(CALLS, "あ\u{1}"), None);
}

#[test]
fn faults_in_a_reading() {
    let faulty = reading![
        |found| found.text.push(' '),
        |found| found.text = found.text.replace('い', "え"),
        |found| drop(found.issues.pop()),
        |found| found.issues.swap(0, 1),
        |found| found.issues[0].offset += 1,
        |found| found.issues[0].kind = IssueKind::Truncated,
        |found| found.issues[0].kind = undefined(GraphicSet::JisKanjiPlane1, 0x2921),
        |found| found.issues[0].kind = undefined(GraphicSet::Kanji, 0x2922),
        |found| found.issues[1].kind = IssueKind::UnknownEscape(vec![0x1B, 0x21, 0x41]),
        |found| found.private_use = 1,
    ];
    found::each(faulty, "input 7 bytes: A229211B2140A4\n", |calls| read(calls, &INPUT));
}

/// あ; a mark; an unknown escape while the mark waits; U+FFFD, which takes it; い; a mark that waits
/// to the end. The issues are at 3, 3 and 11 of the text.
const PLACED: [u8; 11] = [0xA2, 0x21, 0x2D, 0x1B, 0x21, 0x40, 0x29, 0x21, 0xA4, 0x21, 0x2D];

/// Waiting marks counted; behind the placeholder; behind the marks that are released; in
/// characters; the offset.
#[test]
fn faults_in_a_position() {
    assert_eq!(read(CALLS, &PLACED), None);
    let faulty = reading![
        |found| found.issues[0].position = 5,
        |found| found.issues[1].position = 6,
        |found| found.issues[1].position = 8,
        |found| found.issues[2].position = 13,
        |found| found.issues[0].position = 1,
        |found| found.issues[2].position = 4,
        |found| found.issues[1].position = found.issues[1].offset,
    ];
    found::each(faulty, "input 11 bytes: A2212D1B21402921A4212D\n", |calls| read(calls, &PLACED));
}

/// 92-26, a private-use character, three times; U+FFFD; 92-87.
const PRIVATE_USE: [u8; 8] = [0x98, 0x43, 0x7C, 0x3A, 0x29, 0x21, 0x7C, 0x77];

/// None counted; repeats counted once; the placeholder counted; the bytes; one that is not there.
#[test]
fn faults_in_the_private_use_characters() {
    assert_eq!(read(CALLS, &PRIVATE_USE), None);
    let faulty = reading![
        |found| found.private_use = 0,
        |found| found.private_use = 2,
        |found| found.private_use = 5,
        |found| found.private_use = 12,
        |found| found.private_use += 1,
    ];
    found::each(faulty, "input 8 bytes: 98437C3A29217C77\n", |calls| read(calls, &PRIVATE_USE));
}

/// Question 11: not put; before 10; 10 in its place. The case of a refusal: none, another.
#[test]
fn faults_in_a_key_with_private_use() {
    let (alone, with_issue) = ([0x7C, 0x3A], [0x7C, 0x3A, 0xA0]);
    let refused = |number| Err(Refused { number, place: 0 });
    assert_eq!((CALLS.key)(&alone, &Default::default()), refused(11));
    assert_eq!(read(CALLS, &alone), None);
    assert_eq!(read(CALLS, &with_issue), None);
    let text = Calls { key: |bytes, options| Ok((CALLS.decode)(bytes, options).text), ..CALLS };
    let ten = Calls { key: |_, _| Err(Refused { number: 10, place: 0 }), ..CALLS };
    let eleven = Calls { key: |_, _| Err(Refused { number: 11, place: 0 }), ..CALLS };
    assert!(read(text, &alone).is_some());
    assert!(read(ten, &alone).is_some());
    assert!(read(eleven, &with_issue).is_some());
    let none = Calls { reason: |_| None, ..CALLS };
    let issues = Calls { reason: |_| Some(Reason::HasIssues), ..CALLS };
    assert!(read(none, &alone).is_some());
    assert!(read(issues, &alone).is_some());
    assert_eq!(read(issues, &with_issue), None);
}

/// A panic is a difference too: its input is printed.
#[test]
fn a_panic() {
    let calls = Calls { decode: |_, _| panic!("a fault"), ..CALLS };
    assert!(read(calls, &INPUT).is_some_and(|difference| difference.contains("crate: a panic\n")));
}

fn undefined(set: GraphicSet, code: u16) -> IssueKind {
    IssueKind::UndefinedCode { set, code }
}

#[test]
fn faults_in_a_key() {
    let text = Calls { key: |bytes, options| Ok((CALLS.decode)(bytes, options).text), ..CALLS };
    let refused = Calls { key: |_, _| Err(Refused { number: 8, place: 0 }), ..CALLS };
    assert!(read(text, &[0xA2, 0x20]).is_some());
    assert!(read(text, &[0x0E, 0x41]).is_some());
    assert!(read(text, &INPUT).is_some());
    assert!(read(refused, &INPUT).is_some());
    assert!(read(refused, &[0xA2]).is_some());
}

#[test]
fn faults_in_clean() {
    let yes = Calls { clean: |_, _| Ok(true), ..CALLS };
    let no = Calls { clean: |_, _| Ok(false), ..CALLS };
    let refused = Calls { clean: |_, _| Err(Refused { number: 10, place: 0 }), ..CALLS };
    assert!(read(yes, &INPUT).is_some());
    assert!(read(no, &[0xA2]).is_some());
    assert!(read(refused, &INPUT).is_some());
    assert!(read(refused, &[0xA2]).is_some());
}

/// The crate with a fault in what it measures.
macro_rules! measuring {
    ($($fault:expr,)*) => {
        [$(Calls {
            measure: |bytes, options| {
                let mut found = (CALLS.measure)(bytes, options)?;
                let fault: fn(&mut Measured) = $fault;
                fault(&mut found);
                Ok(found)
            },
            ..CALLS
        }),*]
    };
}

#[test]
fn faults_in_what_is_measured() {
    let faulty = measuring![
        |found| found.text -= 1,
        |found| found.text += 1,
        |found| found.issues -= 1,
        |found| found.issues *= 5,
        |found| found.charged += 1,
    ];
    found::each(faulty, "input 7 bytes: A229211B2140A4\n", |calls| read(calls, &INPUT));
    let refused = Calls { measure: |_, _| Err(Refused { number: 8, place: 0 }), ..CALLS };
    assert!(read(refused, &INPUT).is_some());
    assert!(read(refused, &[0xA2]).is_some());
}

/// Marks that wait at the end, which a character behind them would take.
#[test]
fn marks_that_are_forgotten() {
    let clean = |bytes: &[u8], options: &_| (CALLS.clean)(&[bytes, &[0xA2]].concat(), options);
    let calls = Calls { clean, ..CALLS };
    assert_eq!(read(calls, &[0xA2]), None);
    assert!(read(calls, &[0xA2, 0x21, 0x2D]).is_some());
    let [calls] = measuring![|found| (found.text, found.issues) = (3, 0),];
    assert_eq!(read(calls, &[0xA2]), None);
    assert!(read(calls, &[0xA2, 0x21, 0x2D]).is_some());
}

type Encode = fn(&str, &EncodeOptions) -> Result<AribString, EncodeError>;

#[test]
fn faults_in_a_coding() {
    let bytes = Calls { encode: |text, _| Ok(AribString(text.into())), ..CALLS };
    let difference = code(bytes, "あ").expect("other bytes");
    assert!(difference.contains("input 3 bytes: E38182\n"), "{difference}");
    let errors: [Encode; 3] = [
        |_, _| Err(EncodeError::Unencodable { index: 0, ch: '\u{1}' }),
        |_, _| Err(EncodeError::Unencodable { index: 3, ch: '\u{2}' }),
        |_, _| Err(EncodeError::NoBase { index: 3, ch: '\u{1}' }),
    ];
    for encode in errors {
        assert!(code(Calls { encode, ..CALLS }, "あ\u{1}").is_some());
    }
    let gap = Calls {
        code: |text, options| {
            let coded = (CALLS.code)(text, options)?;
            Ok(Coded { gap: coded.gap + 1, ..coded })
        },
        ..CALLS
    };
    assert!(code(gap, "あ").is_some());
}

/// The whole run stops at a fault, and says so.
#[test]
fn a_run_that_finds_a_difference() {
    let calls = Calls { decode: |_, _| Decoded::default(), ..CALLS };
    assert!(!binding::all(&Runs { threads: 1, ..Runs::new(calls, USUAL) }));
}

#[test]
fn faults_in_what_is_too_long() {
    let too_long = |calls| {
        let [call, ..] = under_all(cells::rusts(), &[0xA2; 65_536]);
        Holder::new(calls).too_long(call, &" ".repeat(7_282)).is_err()
    };
    assert!(!too_long(CALLS));
    assert!(too_long(Calls { try_decode: |_, _| Ok(Decoded::default()), ..CALLS }));
    assert!(too_long(Calls { key: |_, _| Err(Refused { number: 8, place: 0 }), ..CALLS }));
    assert!(too_long(Calls { clean: |_, _| Ok(true), ..CALLS }));
    assert!(too_long(Calls { measure: |_, _| Ok(Measured::default()), ..CALLS }));
    assert!(too_long(Calls { encode: |_, _| Ok(AribString::default()), ..CALLS }));
}
