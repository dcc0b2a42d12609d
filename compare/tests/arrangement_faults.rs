//! A subject that gets the order of controls wrong is found out by admissible codings.

mod faulty;

use compare::arrangement::{Arrangement, Control, Way};
use compare::arrangements::{Amount, Holder, Runs, all};
use compare::call::Call;
use compare::cells;
use compare::coding::Coder;
use compare::runs::Worker;
use compare::subject::{Subject, model};
use faulty::{Faulty, SOUND};

/// A coding in which each control, an escape whole, and each byte of a code is replaced; the byte
/// behind it is known.
fn replaced(coding: &[u8], by: fn(&[u8], Option<u8>) -> Vec<u8>) -> Vec<u8> {
    let mut rest = coding;
    let mut out = vec![];
    while let [first, behind @ ..] = rest {
        let last = behind.iter().position(|byte| (0x30..=0x7E).contains(byte));
        let length = if *first == 0x1B { 2 + last.unwrap_or(0) } else { 1 };
        let (piece, after) = rest.split_at(length.min(rest.len()));
        out.extend(by(piece, after.first().copied()));
        rest = after;
    }
    out
}

fn is_locking(piece: &[u8]) -> bool {
    matches!(piece, [0x0E | 0x0F] | [0x1B, 0x6E | 0x6F | 0x7C..=0x7E])
}

fn is_designation(piece: &[u8]) -> bool {
    piece.len() > 2
}

/// NSZ behind it.
fn resized(piece: &[u8]) -> Vec<u8> {
    [piece, &[0x8A]].concat()
}

/// The locking shift of a single-shifted element, to the half of its code.
fn stays(element: u8, behind: Option<u8>) -> Vec<u8> {
    let right = behind.is_some_and(|byte| byte >= 0x80);
    vec![0x1B, if right { 0x7F - element } else { 0x6C + element }]
}

/// Each with what it takes a coding for.
const FAULTS: [(&str, fn(&[u8]) -> Vec<u8>); 12] = [
    ("a locking shift resets the size", |coding| {
        replaced(coding, |piece, _| if is_locking(piece) { resized(piece) } else { piece.to_vec() })
    }),
    ("a designation resets the size", |coding| {
        replaced(
            coding,
            |piece, _| {
                if is_designation(piece) { resized(piece) } else { piece.to_vec() }
            },
        )
    }),
    ("a newline resets the size", |coding| {
        replaced(coding, |piece, _| if piece == [0x0D] { resized(piece) } else { piece.to_vec() })
    }),
    ("MSZ is not undone", |coding| {
        replaced(coding, |piece, _| if piece == [0x8A] { vec![] } else { piece.to_vec() })
    }),
    ("MSZ is for one character", |coding| {
        replaced(coding, |piece, _| match piece {
            [0x21..=0x7E | 0xA1..=0xFE] => resized(piece),
            _ => piece.to_vec(),
        })
    }),
    ("a single shift stays", |coding| {
        replaced(coding, |piece, behind| match piece {
            [0x19] => stays(2, behind),
            [0x1D] => stays(3, behind),
            _ => piece.to_vec(),
        })
    }),
    ("a single shift is for GL's half", |coding| {
        replaced(coding, |piece, behind| match (piece, behind) {
            ([0x19 | 0x1D], Some(0xA1..)) => vec![],
            _ => piece.to_vec(),
        })
    }),
    ("a designation invokes", |coding| {
        replaced(coding, |piece, _| match piece {
            [0x1B, 0x24, 0x30..=0x7E] => [piece, &[0x0F]].concat(),
            [0x1B, 0x28, ..] | [0x1B, 0x24, 0x28, ..] => [piece, &[0x0F]].concat(),
            [0x1B, 0x29, ..] | [0x1B, 0x24, 0x29, ..] => [piece, &[0x0E]].concat(),
            _ => piece.to_vec(),
        })
    }),
    ("DRCS is not designated", |coding| {
        replaced(coding, |piece, _| match piece {
            [0x1B, _, 0x20, ..] | [0x1B, _, _, 0x20, ..] => vec![],
            _ => piece.to_vec(),
        })
    }),
    ("LS3R is LS3", |coding| {
        replaced(coding, |piece, _| match piece {
            [0x1B, 0x7C] => vec![0x1B, 0x6F],
            _ => piece.to_vec(),
        })
    }),
    ("LS1R is LS2R", |coding| {
        replaced(coding, |piece, _| match piece {
            [0x1B, 0x7E] => vec![0x1B, 0x7D],
            _ => piece.to_vec(),
        })
    }),
    ("controls at the end are text", |coding| {
        let mut coding = coding.to_vec();
        if coding.last() == Some(&0x8A) {
            coding.push(0x20);
        }
        coding
    }),
];

/// Whether few runs of each part find a difference.
fn differ(subject: &'static dyn Subject) -> bool {
    let runs = Runs { threads: 1, ..Runs::new(subject, Amount { random: 100 }) };
    !all(&runs)
}

/// The runs find each.
#[test]
fn each_is_found() {
    for (name, takes) in FAULTS {
        assert!(differ(Box::leak(Box::new(Faulty { takes, ..SOUND }))), "{name}");
    }
}

/// Each takes あ through GR, alone, for what it is.
#[test]
fn each_reads_a_plain_text() {
    let mut coding = Arrangement::new(false);
    let text = Call { cells: cells::rusts(), initial: 0, width: 0, input: "あ".as_bytes() };
    coding.write(&Coder::default().choices(&text).unwrap()[0][0], Way::Gr);
    for (name, takes) in FAULTS {
        let subject = Faulty { takes, ..SOUND };
        let mut holder = Holder::new(&subject);
        assert!(holder.hold(text, &coding).is_ok(), "{name}");
    }
}

/// A catalogue that files a title under its bytes, not under its text.
#[test]
fn filed_by_bytes() {
    let text = Call { cells: cells::rusts(), initial: 0, width: 0, input: "あ".as_bytes() };
    let candidate = Coder::default().choices(&text).unwrap()[0][0];
    let (mut first, mut second) = (Arrangement::new(false), Arrangement::new(false));
    first.write(&candidate, Way::Gr);
    second.control(Control::Size(false));
    second.write(&candidate, Way::Single { element: 2, right: true });
    let filed = Faulty {
        add: |call, number, lent| {
            let input = &[0x0E, 0x40 + call.input.len() as u8];
            model().add(Call { input, ..call }, number, lent)
        },
        ..SOUND
    };
    let together = |subject: &Faulty| {
        let mut holder = Holder::new(subject);
        holder.together(0, text, [&first, &second]).is_ok()
    };
    assert!(together(&SOUND));
    assert!(!together(&filed));
}
