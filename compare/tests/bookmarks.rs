//! The model of bookmarks: worked examples, and what the runs give it.

use compare::bookmark::{self, Bookmark, NUMBERS, STORE, named};
use compare::bookmarks::given;
use compare::call::{Call, under_all};
use compare::cells;
use compare::model::Reading;
use compare::random::Random;
use compare::subject::{Lent, model};
use compare::titles;

fn call(initial: u32, input: &[u8]) -> Call<'_> {
    Call { cells: cells::rusts(), initial, width: 0, input }
}

/// The numbers at a place, on a store without bookmarks.
fn set(call: Call, place: usize) -> Result<Bookmark, u32> {
    bookmark::set(call, place, 0, &[0; STORE])
}

/// Those of the numbers that are not 0, with their indices.
fn shown(bookmark: Bookmark) -> Vec<(usize, u32)> {
    (0..).zip(bookmark).filter(|&(_, number)| number != 0).collect()
}

/// The text and the issues behind a place.
fn rest(call: Call, place: usize) -> (String, Vec<[u32; 5]>) {
    let mut store = vec![0; STORE];
    assert_eq!(model().set(call, place, 9, &mut store, &mut []), 0);
    let rest = bookmark::go_on(call, 9, &store).unwrap();
    (rest.as_str().into(), rest.issues)
}

/// Caption: a kana, an issue; a macro of Kanji to G2, a mark in GR and RPC 3; its call; MSZ, LS1;
/// an empty macro, 7E; the first one's call; LS1R, A.
#[test]
fn numbers() {
    let input = [
        0xA2, 0xA0, 0x95, 0x40, 0x21, 0x1B, 0x24, 0x2A, 0x42, 0xA1, 0xAD, 0x98, 0x43, 0x95, 0x4F,
        0x1D, 0x21, 0x89, 0x0E, 0x95, 0x40, 0x7E, 0x95, 0x4F, 0x1D, 0x21, 0x1B, 0x7E, 0x41,
    ];
    let call = call(1, &input);
    // At the start: Kanji, Alphanumeric, Hiragana, Macro; GL is G0, GR is G2.
    let start = vec![(0, 1), (3, 1), (4, 2), (5, 15), (7, 2)];
    assert_eq!(shown(set(call, 0).unwrap()), start);
    // Behind the definition: the body is at 5, of eight bytes; a kana, an issue.
    let numbers = set(call, 15).unwrap();
    assert_eq!((numbers[1], numbers[28 + 0x21], numbers[156 + 0x21]), (15, 6, 8));
    assert_eq!(numbers[284..], [0, 3, 1]);
    assert_eq!(numbers[9..28], [0; 19]);
    // Behind the call: the mark of the body waits with the call's offset, and so does the repeat.
    let numbers = set(call, 17).unwrap();
    assert_eq!(numbers[8..14], [0, 3, 1, 15, 0x301, 0]);
    assert_eq!(numbers[284..], [8, 3, 1]);
    // Behind the second call: GL is G1, the size is Middle, two marks wait, an empty body is at 22.
    let numbers = set(call, 26).unwrap();
    assert_eq!(numbers[..9], [1, 26, 0, 1, 0, 15, 1, 2, 1]);
    assert_eq!(numbers[9..15], [3, 2, 15, 0x301, 0x301, 0]);
    assert_eq!((numbers[28 + 0x7E], numbers[156 + 0x7E]), (23, 0));
    assert_eq!(numbers[284..], [16, 3, 1]);
    // The end: A three times, then both marks; GR is G1.
    let numbers = set(call, 29).unwrap();
    assert_eq!(numbers[6..12], [1, 1, 1, 0, 0, 0]);
    assert_eq!(numbers[284..], [16, 3 + 3 + 4, 1]);
}

/// Each bookmark has its place in the store, and the others stay.
#[test]
fn store() {
    let mut store: Vec<u32> = (0..STORE as u32).map(|n| n * 7).collect();
    store.chunks_mut(NUMBERS).for_each(|bookmark| bookmark[0] = 0);
    let before = store.clone();
    assert_eq!((NUMBERS, STORE), (287, 4_592));
    assert_eq!(model().set(call(0, &[0xA2]), 1, 3, &mut store, &mut []), 0);
    assert_eq!((&store[..861], &store[1_148..]), (&before[..861], &before[1_148..]));
    assert_eq!((store[861], store[862], store[1_146]), (1, 1, 3));
    assert_eq!(named(&store, 3), &store[861..1_148]);
}

/// What a step before the place sees behind it: an unknown escape, a lone single shift, TIME.
#[test]
fn steps_see_the_whole_input() {
    let numbers = |input: &[u8], place| set(call(0, input), place).map(|numbers| numbers[286]);
    assert_eq!(numbers(&[0x1B, 0x24, 0xA2], 2), Ok(1));
    assert_eq!(numbers(&[0x19, 0x0D], 1), Ok(1));
    assert_eq!(numbers(&[0x9D, 0x29, 0x30, 0xA2], 3), Ok(0));
    assert_eq!(rest(call(0, &[0x1B, 0x24, 0xA2]), 2), ("あ".into(), vec![]));
}

/// 16: within a character, an escape, a definition and a call; behind the end; seventeen marks.
#[test]
fn places() {
    let input = [0x34, 0x41, 0x1B, 0x7D, 0x95, 0x40, 0x21, 0xA2, 0x95, 0x4F, 0x1D, 0x21, 0xA2];
    assert_eq!(call(1, &input).places(), [0, 2, 4, 10, 12, 13]);
    for place in 0..20 {
        let is = [0, 2, 4, 10, 12, 13].contains(&place);
        assert_eq!(set(call(1, &input), place).err(), (!is).then_some(16), "{place}");
    }
    assert_eq!(set(call(1, &input), usize::MAX), Err(16));
    assert_eq!(shown(set(call(0, &[]), 0).unwrap())[0], (0, 1));
    let marks = given::marks(17);
    assert_eq!(set(call(0, &marks), 32).unwrap()[10], 16);
    assert_eq!(set(call(0, &marks), 34), Err(16));
}

/// 1, 2, 3, 15, 16.
#[test]
fn order_of_refusals() {
    let (long, good) = (vec![0; 65_536], call(0, &[0xA2]));
    let mut store = vec![0; STORE];
    store[NUMBERS] = 2;
    let less = Call { cells: &good.cells[1..], initial: 2, input: &long, ..good };
    for (call, number) in [
        (less, 1),
        (Call { initial: 2, input: &long, ..good }, 2),
        (Call { input: &long, ..good }, 3),
        (good, 15),
    ] {
        for (name, store) in [(16, &store), (0, &store), (16, &vec![0; STORE]), (0, &vec![])] {
            assert_eq!(bookmark::set(call, 7, name, store), Err(number));
            assert_eq!(bookmark::go_on(call, name, store), Err(number));
        }
    }
    store[NUMBERS] = 1;
    assert_eq!(bookmark::set(good, 7, 1, &store), Err(16));
    assert_eq!(bookmark::go_on(good, 0, &store), Err(15));
    assert!(bookmark::go_on(good, 1, &store).is_ok());
}

/// What one number of a bookmark may be over LINE, and what not.
const LIMITS: &[(usize, &[u32], &[u32])] = &[
    (0, &[1], &[0, 2, u32::MAX]),
    (1, &[0, 1, 14], &[15, u32::MAX]),
    (2, &[0, 31], &[32, u32::MAX]),
    (5, &[0, 31], &[32, u32::MAX]),
    (6, &[0, 3], &[4, u32::MAX]),
    (7, &[0, 3], &[4, u32::MAX]),
    (8, &[0, 1], &[2, u32::MAX]),
    (9, &[0, 63], &[64, u32::MAX]),
    (10, &[0, 1, 2], &[3, 16, 17, u32::MAX]),
    (11, &[0, 15, u32::MAX], &[]),
    (12, &[0x301, 0x300, 0x308, 0x302, 0x305, 0x332, 0x20DD], &[0, 0x303, 0xD800, u32::MAX]),
    (14, &[0, 1, u32::MAX], &[]),
    // The body of 21, at 3, of one byte: within the input and without 95 4F.
    (28 + 0x21, &[0, 1, 4, 5, 14], &[15, 16, u32::MAX]),
    (156 + 0x21, &[0, 1, 2], &[3, 4, 11, 12, u32::MAX]),
    // A code without a body, whose length is asked from the beginning.
    (28 + 0x22, &[0, 1, 15], &[16, u32::MAX]),
    (156 + 0x22, &[0, 1, 5], &[6, 14, 15, u32::MAX]),
    (284, &[0, 4_992], &[4_993, u32::MAX]),
    (285, &[0, 0x7FFF_FFFF], &[0x8000_0000, u32::MAX]),
    (286, &[0, u32::MAX], &[]),
];

/// A macro, and marks that wait: 95 40 21 あ 95 4F, two marks, あ, い, う, え.
const LINE: [u8; 14] =
    [0x95, 0x40, 0x21, 0xA2, 0x95, 0x4F, 0x21, 0x2D, 0x21, 0x2E, 0xA2, 0xA4, 0xA6, 0xA8];

#[test]
fn limits() {
    let call = call(0, &LINE);
    let mut store = vec![0; STORE];
    assert_eq!(model().set(call, 10, 0, &mut store, &mut []), 0);
    for &(index, accepted, refused) in LIMITS {
        let kept = store[index];
        for (&number, is) in
            accepted.iter().map(|n| (n, true)).chain(refused.iter().map(|n| (n, false)))
        {
            store[index] = number;
            let answer = bookmark::go_on(call, 0, &store).err();
            assert_eq!(answer, (!is).then_some(15), "{index}: {number}");
        }
        store[index] = kept;
    }
}

/// Marks that wait come out behind their base, or alone with the first one's offset.
#[test]
fn waiting() {
    let call = call(0, &LINE);
    assert_eq!(rest(call, 8).0, "あ\u{301}\u{300}いうえ");
    let alone = Call { input: &LINE[..10], ..call };
    assert_eq!(rest(alone, 10), ("\u{301}\u{300}".into(), vec![[6, 12, 0, 0, 0]]));
    let newline = Call { input: &[0xA2, 0x21, 0x2D, 0x0D, 0xA0], ..call };
    let issues = vec![[1, 12, 0, 0, 3], [4, 2, 0xA0, 0, 6]];
    assert_eq!(rest(newline, 3), ("\u{301}\n".into(), issues));
}

/// A return in counts and buffers that hold something.
#[test]
fn returned() {
    let call = call(0, &[0xA2, 0xA0, 0xA4, 0x7C, 0x3A]);
    let mut store = vec![0; STORE];
    assert_eq!(model().set(call, 1, 2, &mut store, &mut []), 0);
    let go_on = |name: u32, text_room: usize, issue_room: usize| {
        let (mut text, mut issues, mut counts) = ([0xA5; 9], [7; 6], [9; 6]);
        let (text, issues, counts) =
            (&mut text[..text_room], &mut issues[..issue_room], &mut counts);
        let lent = Lent { text, issues, counts };
        let answer = model().go_on(call, name, &store, lent);
        (answer, text.to_vec(), issues.to_vec(), *counts)
    };
    let text = "い\u{E0FF}\0".as_bytes();
    let (answer, given, issues, counts) = go_on(2, 7, 6);
    assert_eq!((answer, counts), (0, [0, 6, 1, 0, 1, 9]));
    assert_eq!((given[..3] == text[..3], given[6], issues), (true, 0, vec![1, 2, 160, 0, 3, 0]));
    assert_eq!(go_on(2, 5, 4), (8, vec![0; 5], vec![0; 4], [0, 0, 0, 0, 0, 9]));
    assert_eq!(go_on(2, 6, 4), (9, vec![0; 6], vec![0; 4], [0, 0, 0, 0, 0, 9]));
    assert_eq!(go_on(1, 6, 5), (15, vec![0; 6], vec![0; 5], [0, 0, 0, 0, 0, 9]));
}

/// The whole is what was read before a place and what is read on from it; and where an input that
/// is cut there reads as the beginning of it, the Rust's text of that is what the number says.
#[test]
fn part_and_rest() {
    let titles = titles::all();
    let (mut cut, mut with_marks) = (0, 0);
    for index in 0..400 {
        let input = given::short(&mut Random::new(5, index), &titles);
        for call in under_all(cells::rusts(), &input) {
            let mut whole = Reading::default();
            call.read(&mut whole);
            for place in call.places() {
                let between = call.between(place).unwrap();
                let mut rest = Reading::default();
                call.read_on(&between, &mut rest);
                assert_eq!(whole.text[between.text..], rest.text);
                assert_eq!(whole.issues[between.issues..], rest.issues);
                assert_eq!(whole.charge, rest.charge);
                with_marks += usize::from(!between.marks.is_empty());
                let part = oracle::reading::read(call.options(), &input[..place]);
                if between.marks.is_empty() && part.issues.len() == between.issues {
                    assert_eq!(part.text.len(), between.text);
                    cut += 1;
                }
            }
        }
    }
    assert!(cut > 10_000 && with_marks > 500, "{cut}, {with_marks}");
}

/// Among the corners are places with every number of waiting marks up to 16, and with more.
#[test]
fn waiting_marks_are_given() {
    let mut seen = [false; 18];
    for input in given::own() {
        for call in under_all(cells::rusts(), &input) {
            for between in call.places().into_iter().filter_map(|place| call.between(place)) {
                seen[between.marks.len().min(17)] = true;
            }
        }
    }
    assert_eq!(seen, [true; 18]);
}
