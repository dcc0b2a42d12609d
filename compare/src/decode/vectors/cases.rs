//! The list of calls: 01's table, the corners, limits, then random ones without end.

use super::Case;
use crate::call::{Call, OPTIONS, Rooms};
use crate::inputs::{self, bombs, corners};
use crate::model::{ISSUE, Reading};
use crate::questions::some_wrong_options;
use crate::random::Random;
use crate::{cells, titles};

/// The greatest rooms of any case.
pub const MOST: Rooms = Rooms { text: 4_096, issues: 256 * ISSUE };
/// The usual ones.
const USUAL: Rooms = Rooms { text: 256, issues: 16 * ISSUE + 2 };

/// Input, text and issues of a random case have at most so many bytes.
const SHORT: usize = 150;
/// Of the random cases one in so many is long.
const LONG: u64 = 100;

/// The whole list, which has no end.
pub fn all() -> impl Iterator<Item = Case> {
    let table = corners::table().map(|(initial, width, input)| case(true, initial, width, input));
    let corner = |(initial, width, input)| case(false, initial, width, input);
    let corners = table.chain(corners::corners().map(corner)).chain(tight());
    let limits = options().chain(bytes()).chain(spent()).chain(rows()).chain(level());
    corners.chain(limits).chain(named()).chain(random())
}

/// A case in the usual rooms.
fn case(zeros: bool, initial: u32, width: u32, input: Vec<u8>) -> Case {
    Case { zeros, initial, width, input, rooms: USUAL }
}

/// The corners in exact rooms, and with one byte, one number, and both less.
fn tight() -> impl Iterator<Item = Case> {
    let cells = cells::rusts();
    corners::corners().flat_map(move |(initial, width, input)| {
        let mut reading = Reading::default();
        Call { cells, initial, width, input: &input }.read(&mut reading);
        let Rooms { text, issues } = Rooms::exact(&reading);
        let (less_text, less_issues) = (text.saturating_sub(1), issues.saturating_sub(1));
        let mut list = vec![
            (text, issues),
            (less_text, issues + 2),
            (text, less_issues),
            (less_text, less_issues),
        ];
        list.dedup();
        list.into_iter().map(move |(text, issues)| Case {
            rooms: Rooms { text, issues },
            ..case(false, initial, width, input.clone())
        })
    })
}

/// Options that question 2 refuses.
fn options() -> impl Iterator<Item = Case> {
    let pairs = some_wrong_options();
    pairs.map(|(initial, width)| case(false, initial, width, vec![0xA2]))
}

/// Every byte, alone and before two kana.
fn bytes() -> impl Iterator<Item = Case> {
    let small = |n: u8, input| Case {
        rooms: Rooms {
            text: 9 + usize::from(n % 3),
            issues: 3 * ISSUE + usize::from(n) % (ISSUE + 1),
        },
        ..case(n & 1 == 0, u32::from(n / 2 % 2), u32::from(n / 4 % 2), input)
    };
    (0..=255).flat_map(move |n| [small(n, vec![n]), small(n, vec![n, 0xA2, 0xA4])])
}

/// Whole rows beside a limit, each by one set: its final byte. The rows of marks and overrides
/// are also read with zeros.
const KANJI: u8 = 0x42;
const PLANE_1: u8 = 0x39;
const ADDITIONAL: u8 = 0x3B;
const ROWS: &[(u8, &[u8])] = &[
    (1, &[KANJI, PLANE_1]),
    (2, &[KANJI, PLANE_1]),
    (8, &[KANJI]),
    (9, &[KANJI]),
    (15, &[KANJI]),
    (16, &[KANJI, PLANE_1]),
    (84, &[KANJI, PLANE_1, ADDITIONAL]),
    (85, &[KANJI, PLANE_1, ADDITIONAL]),
    (86, &[ADDITIONAL]),
    (89, &[KANJI]),
    (90, &[KANJI, PLANE_1, ADDITIONAL]),
    (91, &[KANJI]),
    (92, &[KANJI, ADDITIONAL]),
    (93, &[KANJI]),
    (94, &[KANJI, ADDITIONAL]),
];

fn rows() -> impl Iterator<Item = Case> {
    let input = |row: u8, set: u8| {
        let cells = (0x21..=0x7E).flat_map(move |cell| [row + 0x20, cell]);
        [0x1B, 0x24, set].into_iter().chain(cells).collect()
    };
    let tables = |row: u8| if row <= 2 { &[false, true][..] } else { &[false] };
    let all = ROWS.iter().flat_map(move |&(row, sets)| {
        sets.iter().flat_map(move |&set| tables(row).iter().map(move |&zeros| (row, set, zeros)))
    });
    let rooms = Rooms { text: 4 * 94, issues: ISSUE * 94 };
    all.map(move |(row, set, zeros)| Case { rooms, ..case(zeros, 0, 0, input(row, set)) })
}

/// The first 1,316 kanji, whose text almost fills the greatest room.
fn level() -> impl Iterator<Item = Case> {
    let rows = inputs::every_pair()[15 * 94..][..14 * 94].concat();
    std::iter::once(Case { rooms: MOST, ..case(false, 0, 0, rows) })
}

/// Budgets that are spent.
fn spent() -> impl Iterator<Item = Case> {
    let rooms = Rooms { text: 600, issues: 200 * ISSUE };
    bombs::small().into_iter().map(move |input| Case { rooms, ..case(false, 1, 0, input) })
}

/// The titles.
fn named() -> impl Iterator<Item = Case> {
    titles::all().into_iter().map(|input| case(false, 0, 0, input))
}

/// Random inputs that stay small, in rooms beyond, exact or too small by a little.
fn random() -> impl Iterator<Item = Case> {
    let (titles, tables) = (titles::all(), [cells::rusts(), cells::zeros()]);
    (0..).filter_map(move |index| {
        let mut random = Random::new(0x5EED, index);
        let long = index % LONG == 0;
        let input = if long {
            inputs::pieces(&mut random, 700)
        } else {
            inputs::random(&mut random, &titles)
        };
        let (zeros, (initial, width)) = (random.once_in(4), random.one_of(&OPTIONS));
        let mut reading = Reading::default();
        let cells = tables[usize::from(zeros)];
        Call { cells, initial, width, input: &input }.read(&mut reading);
        let exact = Rooms::exact(&reading);
        let size = input.len() + exact.text + size_of::<u32>() * exact.issues;
        let fits = exact.text < MOST.text - 20 && exact.issues < MOST.issues - 20;
        let kept = fits && (long || size <= SHORT);
        let rooms = around(&mut random, exact);
        kept.then(|| Case { rooms, ..case(zeros, initial, width, input) })
    })
}

/// Mostly rooms beyond the exact ones.
fn around(random: &mut Random, exact: Rooms) -> Rooms {
    let Rooms { text, issues } = exact;
    let (more, numbers) = (random.below(20), random.below(3 * ISSUE));
    match random.below(12) {
        0 => Rooms { text: text.saturating_sub(1 + more / 6), issues: issues + numbers },
        1 => Rooms { text: text + more, issues: issues.saturating_sub(1 + numbers / 3) },
        2 | 3 => exact,
        _ => Rooms { text: text + more, issues: issues + numbers },
    }
}
