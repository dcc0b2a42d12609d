//! The model's private-use characters: at corners, and by isdb-text's symbols; and that tables and
//! inputs have them.

use std::collections::BTreeSet;

use compare::call::{Call, under_all};
use compare::inputs::ways;
use compare::model::Reading;
use compare::private_use::{count, is_private_use};
use compare::random::Random;
use compare::{cells, inputs, key, titles};
use isdb_text::addsym::{self, Mapping};
use oracle::hex;

/// 16-1 to 16-5 of a table that is else empty.
const CELLS: [u16; 5] = [0xD7FF, 0xE000, 0xF8FF, 0xF900, 0xFFFD];

fn table() -> Vec<u16> {
    let mut cells = cells::zeros().to_vec();
    cells[cells::index(16, 1)..][..CELLS.len()].copy_from_slice(&CELLS);
    cells
}

/// Initial state, the bytes, the text, its private-use characters, and the number of the key's
/// refusal in room enough.
const CORNERS: &[(u32, &str, &str, usize, u32)] = &[
    (0, "", "", 0, 0),
    (0, "A2", "あ", 0, 0),
    // The ends, and what stands beside them.
    (0, "3021", "\u{D7FF}", 0, 0),
    (0, "3022", "\u{E000}", 1, 11),
    (0, "3023", "\u{F8FF}", 1, 11),
    (0, "3024", "\u{F900}", 0, 0),
    (0, "3025", "\u{FFFD}", 0, 0),
    (0, "30213022302330243025", "\u{D7FF}\u{E000}\u{F8FF}\u{F900}\u{FFFD}", 2, 11),
    // A placeholder is none; repeats are counted; marks are not.
    (0, "3026", "\u{FFFD}", 0, 10),
    (0, "98433022", "\u{E000}\u{E000}\u{E000}", 3, 11),
    (0, "9843302698423023", "\u{FFFD}\u{FFFD}\u{FFFD}\u{F8FF}\u{F8FF}", 2, 10),
    (0, "212D98423022", "\u{E000}\u{E000}\u{301}", 2, 11),
    (0, "3022212D", "\u{E000}\u{301}", 1, 10),
    // Additional symbols by both sets: 92-26, 92-31, 92-56, 92-87.
    (0, "7C3A7C3F7C587C77", "\u{E290}\u{E295}\u{E2A5}\u{E3A8}", 4, 11),
    (0, "1B243B7C3A", "\u{E290}", 1, 11),
    (0, "1B24397C3A3022", "\u{FFFD}\u{E000}", 1, 10),
    // In GR, by single shifts, in a body that is called twice.
    (0, "1B242A42B0A2", "\u{E000}", 1, 11),
    (0, "1B242A4219302219B0A3", "\u{E000}\u{F8FF}", 2, 11),
    (1, "9540213022954F1D211D21", "\u{E000}\u{E000}", 2, 11),
];

#[test]
fn corners() {
    let cells = table();
    for &(initial, digits, text, private_use, number) in CORNERS {
        let mut input = Vec::new();
        hex::parse(&mut input, digits).unwrap();
        let mut reading = Reading::default();
        Call { cells: &cells, initial, width: 0, input: &input }.read(&mut reading);
        assert_eq!((reading.as_str(), reading.private_use()), (text, private_use), "{digits}");
        assert_eq!(reading.counts()[4], private_use, "{digits}");
        let room = text.len();
        assert_eq!(key::questions(room, &reading), number, "{digits}");
        if room > 0 {
            assert_eq!(key::questions(room - 1, &reading), 8, "{digits}");
        }
    }
}

/// Those that isdb-text keeps in the private use area, and no other symbol: 92-26 to 92-31 and
/// 92-56 to 92-87.
#[test]
fn by_the_rusts_symbols() {
    let kept = |symbol: &addsym::AdditionalSymbol| symbol.mapping == Mapping::PrivateUse;
    for symbol in addsym::all() {
        assert_eq!(is_private_use(symbol.unicode), kept(&symbol), "{symbol:?}");
    }
    let places = addsym::all().filter(kept).map(|symbol| (symbol.row, symbol.cell));
    assert!(places.eq((26..=31).chain(56..=87).map(|cell| (92, cell))));
}

#[test]
fn on_every_character() {
    let all: String = ('\0'..=char::MAX).collect();
    assert_eq!(count(&all), 0xF8FF - 0xE000 + 1);
    assert_eq!(all.chars().find(|&c| is_private_use(c)), Some('\u{E000}'));
    assert_eq!(all.chars().rfind(|&c| is_private_use(c)), Some('\u{F8FF}'));
}

/// The other tables of a run: in each row that may hold a character some have a private-use one,
/// and each end and what stands beside it is in many.
#[test]
fn tables_have_them() {
    let tables: Vec<_> = (0..40).map(|n| cells::other(&mut Random::new(1, n), n)).collect();
    let private = |cell: u16| (0xE000..=0xF8FF).contains(&cell);
    let rows = |table: &[u16]| {
        let rows = (1..=94u8).zip(table.chunks(94));
        rows.filter(|(_, row)| row.iter().any(|&cell| private(cell))).map(|(n, _)| n).collect()
    };
    let held: BTreeSet<u8> = tables.iter().flat_map(|table| -> Vec<_> { rows(table) }).collect();
    assert!(held.into_iter().eq((1..=8).chain(16..=84)));
    for end in [0xD7FF, 0xE000, 0xF8FF, 0xF900] {
        let holding = tables.iter().filter(|table| table.contains(&end)).count();
        assert!(holding > 10, "{end:X}: {holding}");
    }
}

/// 92-26 by every way: the Kanji set and the additional symbols have it, plane 1 has not.
#[test]
fn by_every_way() {
    let strings: Vec<_> = ways::every([0x7C, 0x3A]).collect();
    let mut counts = [0; 3];
    for call in strings.iter().flat_map(|input| under_all(cells::rusts(), input)) {
        let mut reading = Reading::default();
        call.read(&mut reading);
        counts[reading.private_use()] += 1;
    }
    assert_eq!(counts, [3 * 11, 2 * 2 * 11, 2 * 11].map(|n| 4 * 2 * n));
}

/// Random inputs with an issue and a private-use character, and with the character alone.
#[test]
fn inputs_have_them() {
    let titles = titles::all();
    let (mut with_issues, mut alone) = (0, 0);
    for index in 0..20_000 {
        let input = inputs::random(&mut Random::new(1, index), &titles);
        let mut reading = Reading::default();
        Call { cells: cells::rusts(), initial: 0, width: 0, input: &input }.read(&mut reading);
        if reading.private_use() > 0 {
            *(if reading.issues.is_empty() { &mut alone } else { &mut with_issues }) += 1;
        }
    }
    assert!(with_issues > 1_000 && alone > 300, "{with_issues}, {alone}");
}
