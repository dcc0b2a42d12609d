//! The model's positions: at corners, and by the Rust's text.

use compare::call::{Call, under_all};
use compare::model::{Issue, Reading};
use compare::random::Random;
use compare::{cells, inputs, titles};
use oracle::{hex, reading};

/// Initial state, the bytes, the text, the issues.
const CORNERS: &[(u32, &str, &str, &[Issue])] = &[
    // A placeholder behind text, once and three times.
    (0, "A22921A4", "あ\u{FFFD}い", &[[1, 5, 0, 0x2921, 3]]),
    (0, "A298432921A0", "あ\u{FFFD}\u{FFFD}\u{FFFD}", &[[3, 5, 0, 0x2921, 3], [5, 2, 160, 0, 12]]),
    // Marks before a newline, and at the end.
    (0, "A2212D212E0DA4A0", "あ\u{301}\u{300}\nい", &[[1, 12, 0, 0, 3], [7, 2, 160, 0, 11]]),
    (0, "A2212D", "あ\u{301}", &[[1, 12, 0, 0, 3]]),
    // Issues while a mark waits: one that writes nothing, a placeholder, which takes the mark.
    (0, "A2212DA0A4", "あい\u{301}", &[[3, 2, 160, 0, 3]]),
    (0, "A2212D2921", "あ\u{FFFD}\u{301}", &[[3, 5, 0, 0x2921, 3]]),
    (0, "A2212DA00D", "あ\u{301}\n", &[[3, 2, 160, 0, 3], [1, 12, 0, 0, 3]]),
    // In a body that is called twice; a mark of a body that waits to the end.
    (
        1,
        "954021A22921954F1D211D21",
        "あ\u{FFFD}あ\u{FFFD}",
        &[[8, 5, 0, 0x2921, 3], [10, 5, 0, 0x2921, 9]],
    ),
    (1, "A4954121A2212D954F", "いあ\u{301}", &[[1, 12, 0, 0, 6]]),
];

#[test]
fn corners() {
    for (initial, digits, text, issues) in CORNERS {
        let mut input = Vec::new();
        hex::parse(&mut input, digits).unwrap();
        let mut reading = Reading::default();
        Call { cells: cells::rusts(), initial: *initial, width: 0, input: &input }
            .read(&mut reading);
        assert_eq!(
            (&reading.text[..], &reading.issues[..]),
            (text.as_bytes(), *issues),
            "{digits}"
        );
    }
}

/// How much the Rust writes before a place of the input: a newline there and a space there give
/// texts that are alike so far, since marks that wait go before the one and behind the other. NUL
/// before them ends an escape.
fn written(call: Call, place: usize) -> u32 {
    let text = |byte| {
        let input = [&call.input[..place], &[0x00, byte]].concat();
        reading::read(call.options(), &input).text
    };
    let (newline, space) = (text(0x0D), text(0x20));
    let alike = newline.chars().zip(space.chars()).take_while(|(a, b)| a == b);
    alike.map(|(c, _)| c.len_utf8() as u32).sum()
}

/// Positions never fall along the list, stay in the text, and cut no character. Where no macro body
/// ran, they are as much as the Rust writes before the issue's offset; also of marks without a
/// base, whose offset is the first one's, since nothing is written while they wait.
fn hold(call: Call, reading: &mut Reading) {
    call.read(reading);
    let (text, input) = (str::from_utf8(&reading.text).unwrap(), call.input);
    assert!(reading.issues.is_sorted_by_key(|[.., position]| *position), "{input:02X?}");
    for &[offset, .., position] in &reading.issues {
        assert!(text.is_char_boundary(position as usize), "{input:02X?}");
        if reading.charge == 0 {
            assert_eq!(written(call, offset as usize), position, "{input:02X?}");
        }
    }
}

#[test]
fn by_the_rusts_text() {
    let titles = titles::all();
    let random = |index| inputs::random(&mut Random::new(1, index), &titles);
    let all = inputs::every_corner().into_iter();
    let all = all.chain((0..inputs::TO_TWO).map(inputs::to_two)).chain((0..50_000).map(random));
    let mut reading = Reading::default();
    for input in all {
        for call in under_all(cells::rusts(), &input) {
            hold(call, &mut reading);
        }
    }
}
