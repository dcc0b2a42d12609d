//! The model of coding on the lines of 01's table of twelve that code, and at corners.

use compare::bench::{Work, tables};
use compare::call::{Call, CodingRooms, under_all};
use compare::coding::Coder;
use compare::texts::corners::TABLE;
use compare::{cells, titles};
use oracle::hex;

/// The cell table, initial state, width, the text; the coding with its gap and the numbers of
/// the store that it needs, or the refusal.
type Corner = (Table, u32, u32, &'static str, Answer);

enum Table {
    Rusts,
    Zeros,
}

enum Answer {
    Coding(&'static str, usize, usize),
    Refused(u32, u32),
}

use Answer::{Coding, Refused};
use Table::{Rusts, Zeros};

const CORNERS: &[Corner] = &[
    // The table of twelve.
    (Zeros, 0, 0, TABLE[0], Coding("0E41", 0, 32)),
    (Zeros, 0, 0, TABLE[1], Coding("20", 0, 8)),
    (Zeros, 0, 0, TABLE[2], Coding("890E41", 0, 32)),
    (Zeros, 0, 0, TABLE[3], Refused(5, 2)),
    // No layer; layers of one state, of which those two or more back take one number each.
    (Zeros, 0, 0, "", Coding("", 0, 0)),
    (Zeros, 0, 0, "\n", Coding("0D", 0, 8)),
    (Zeros, 0, 0, "\n\n\n", Coding("0D0D0D", 0, 10)),
    // Marks before their base, by their own cells.
    (Zeros, 0, 0, "あ\u{301}", Coding("212DA2", 0, 9)),
    (Zeros, 0, 0, "あ\u{301}\u{1}", Refused(6, 5)),
    (Zeros, 0, 0, "あ\n\u{301}\u{300}", Refused(5, 4)),
    // Of equal costs the state reached first.
    (Rusts, 0, 0, "アア", Coding("1D221D22", 0, 117)),
    (Zeros, 0, 0, "アア", Coding("1B6F2222", 0, 57)),
    (Rusts, 0, 0, "Ａ", Coding("0E41", 0, 36)),
    (Rusts, 0, 0, "年", Coding("472F", 0, 36)),
    (Zeros, 0, 0, "年", Coding("7C27", 0, 36)),
    (Rusts, 0, 0, "🈔", Coding("7D3E", 0, 36)),
    // AnnexE pays for size controls too.
    (Zeros, 0, 1, "A", Coding("890E41", 0, 32)),
    (Zeros, 0, 1, " ", Coding("8920", 0, 8)),
    (Rusts, 0, 1, "\u{3000}", Coding("2121", 0, 8)),
    (Zeros, 0, 1, "\u{3000}", Refused(6, 0)),
];

#[test]
fn corners() {
    let (rusts, zeros) = (cells::rusts(), cells::zeros());
    let mut model = Coder::default();
    for (table, initial, width, text, answer) in CORNERS {
        let cells = if matches!(table, Rusts) { rusts } else { zeros };
        let call = Call { cells, initial: *initial, width: *width, input: text.as_bytes() };
        match (model.code(&call), answer) {
            (Ok(coding), Coding(digits, gap, store)) => {
                let mut bytes = Vec::new();
                hex::parse(&mut bytes, digits).unwrap();
                assert_eq!((&coding.bytes, coding.gap), (&bytes, *gap), "{text:?}");
                assert_eq!(CodingRooms::exact(&coding).store, *store, "{text:?}");
            }
            (Err(refusal), Refused(number, place)) => {
                assert_eq!((refusal.number, refusal.place), (*number, *place), "{text:?}");
            }
            (other, _) => panic!("{text:?}: {other:?}"),
        }
    }
}

/// A has one layer: the start, and seven states reached.
#[test]
fn rooms() {
    let cells = cells::zeros();
    let call = Call { cells, initial: 0, width: 0, input: b"A" };
    let coding = Coder::default().code(&call).unwrap();
    let refusal =
        |store, coding_room| CodingRooms { store, coding: coding_room }.questions(&coding);
    assert_eq!([31, 32, 35].map(|store| refusal(store, 3)), [7, 0, 0]);
    assert_eq!([refusal(31, 2), refusal(32, 2), refusal(36, 4)], [7, 8, 0]);
}

/// A title: of its states those two or more layers back take one number each, and a remainder
/// counts.
#[test]
fn older_states_take_one_number() {
    let call =
        Call { cells: cells::rusts(), initial: 0, width: 0, input: "ニュース 7:00".as_bytes() };
    let coding = Coder::default().code(&call).unwrap();
    assert_eq!((coding.numbers, coding.states), (2_158, 1_018));
    let rooms = CodingRooms::exact(&coding);
    let refusal = |store| CodingRooms { store, ..rooms }.questions(&coding);
    assert_eq!([1_018, 2_157, 2_158, 4_072].map(refusal), [7, 7, 0, 0]);
}

/// What four numbers a state held is held.
#[test]
fn no_title_needs_more_than_four_a_state() {
    let mut model = Coder::default();
    for cells in [cells::rusts(), cells::zeros()] {
        for title in titles::texts() {
            for call in under_all(cells, title.as_bytes()) {
                let Ok(coding) = model.code(&call) else { continue };
                assert!(coding.numbers <= 4 * coding.states, "{title}");
                assert_eq!(CodingRooms::older(&coding).questions(&coding), 0, "{title}");
            }
        }
    }
}

/// What the titles need, Si, beside four numbers a state: a title in less than a third, and all.
#[test]
fn what_titles_need() {
    let mut model = Coder::default();
    let mut needs = |title: &str| {
        let call = Call { cells: cells::rusts(), initial: 0, width: 0, input: title.as_bytes() };
        let coding = model.code(&call).unwrap();
        [coding.numbers, 4 * coding.states]
    };
    assert_eq!(needs("英会話\u{3000}Lesson 12 \"At the station\""), [331, 1_084]);
    let sum = |[a, b]: [usize; 2], [c, d]: [usize; 2]| [a + c, b + d];
    let all = titles::texts().into_iter().map(|title| needs(title.as_ref())).fold([0, 0], sum);
    assert_eq!(all, [278_479, 607_072]);
}

/// The stores of the benchmark, by README.md.
#[test]
fn stores_of_the_benchmark() {
    let coded = tables().flat_map(|table| table.cases).filter(|case| case.work == Work::Code);
    let stores: Vec<_> = coded.map(|case| (case.name, case.ready().stores())).collect();
    let expected = [
        ("code-titles", [18_931, 44_356]),
        ("code-lines", [179_032, 700_072]),
        ("code-caption", [1_786_733, 7_130_744]),
        ("code-mixed", [179_002, 675_904]),
        ("code-marks", [36_780, 133_452]),
        ("code-newlines", [476_403, 1_717_188]),
    ];
    assert_eq!(stores, expected);
}
