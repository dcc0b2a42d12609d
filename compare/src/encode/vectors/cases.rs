//! The list of calls: 01's table, the corners, options, samples, titles, gaps, texts of up to
//! 1,024 bytes, then random ones without end.

use super::{Case, LONGEST, MOST};
use crate::call::{CodingRooms, OPTIONS};
use crate::coding::{Coder, Coding};
use crate::encode::rooms::SOME;
use crate::questions::some_wrong_options;
use crate::random::Random;
use crate::texts::{self, Alphabet, corners, long, samples};
use crate::{cells, titles};

/// How many cases with a gap.
const GAPS: usize = 48;
/// Text and coding of a random case have at most so many bytes.
const SHORT: usize = 150;
/// The search of a random case, or of one with a gap, has at most so many states.
const FEW: usize = 16_384;

/// The whole list, which has no end.
pub fn all() -> impl Iterator<Item = Case> {
    let fixed = table().chain(corners()).chain(options()).chain(pairs()).chain(named());
    fixed.chain(gaps()).chain(great()).chain(random())
}

/// The coding lines of 01's table: A also with a store of 31 numbers.
fn table() -> impl Iterator<Item = Case> {
    let rooms = CodingRooms { store: 32, coding: 8 };
    let one = move |text: &&str| Case { rooms, ..case(true, (0, 0), text.as_bytes()) };
    let short = CodingRooms { store: 31, ..rooms };
    let last = Case { rooms: short, ..case(true, (0, 0), b"A") };
    corners::TABLE.iter().map(one).chain([last])
}

/// Each corner with both tables: by the Rust's in exact rooms and in rooms that lack a number, a
/// byte or both, by zeros beyond the exact ones; under all options in turn.
fn corners() -> impl Iterator<Item = Case> {
    let mut needs = Needs::default();
    corners::all().enumerate().flat_map(move |(n, text)| {
        let rusts = case(false, OPTIONS[n % 4], text);
        let zeros = case(true, OPTIONS[n / 4 % 4], text);
        let CodingRooms { store, coding } = needs.rooms(&zeros);
        let beyond = CodingRooms { store: store + n % 9, coding: coding + n % 7 };
        let mut list = tight(&rusts, &mut needs);
        list.push(Case { rooms: beyond, ..zeros });
        list
    })
}

/// A case in exact rooms, then with a number, a byte, and both less; once if the text is refused
/// in any rooms.
fn tight(case: &Case, needs: &mut Needs) -> Vec<Case> {
    let CodingRooms { store, coding } = needs.rooms(case);
    let mut list = vec![(store, coding)];
    if needs.of(case).is_some_and(|need| need.numbers > 0) {
        list.extend([(store - 1, coding + 2), (store + 3, coding - 1), (store - 1, coding - 1)]);
    }
    let rooms = list.into_iter().map(|(store, coding)| CodingRooms { store, coding });
    rooms.filter_map(|rooms| fitting(Case { rooms, ..case.clone() })).collect()
}

/// Options that question 2 refuses.
fn options() -> impl Iterator<Item = Case> {
    let pairs = some_wrong_options();
    pairs.map(|options| Case { rooms: SOME, ..case(false, options, "あ\u{301}".as_bytes()) })
}

/// Every third pair of samples, with both tables under all options in turn.
fn pairs() -> impl Iterator<Item = Case> {
    let mut needs = Needs::default();
    (0..samples::count(2)).step_by(3).map(move |index| {
        let text = samples::sequence(index, 2);
        let n = (index / 3) as usize;
        let case = case(n.is_multiple_of(3), OPTIONS[n % 4], text.as_bytes());
        let CodingRooms { store, coding } = needs.rooms(&case);
        Case { rooms: CodingRooms { store: store + n % 4, coding }, ..case }
    })
}

/// The titles in tight rooms, and once more under the other options in turn.
fn named() -> impl Iterator<Item = Case> {
    let mut needs = Needs::default();
    titles::lines().enumerate().flat_map(move |(n, (_, title))| {
        let si = case(false, (0, 0), title.as_bytes());
        let other = case(n % 2 == 1, OPTIONS[1 + n % 3], title.as_bytes());
        let mut list = tight(&si, &mut needs);
        list.truncate(3);
        list.extend(tight(&other, &mut needs).into_iter().take(1));
        list
    })
}

/// Mixtures whose codings have a gap, in exact rooms.
fn gaps() -> impl Iterator<Item = Case> {
    let (mut needs, alphabet) = (Needs::default(), Alphabet::new(cells::rusts()));
    let found = (0..).filter_map(move |index| {
        let mut random = Random::new(0x6A95, index);
        let length = random.range(20, 90);
        let text = alphabet.mixture(&mut random, length);
        let case = case(random.once_in(4), random.one_of(&OPTIONS), text.as_bytes());
        let need = needs.of(&case).filter(|need| need.gap > 0 && need.states <= FEW)?;
        fitting(Case { rooms: CodingRooms::exact(&need), ..case })
    });
    found.take(GAPS)
}

/// Long texts: those whose need is small, and those that no store of a case holds.
fn great() -> impl Iterator<Item = Case> {
    let parts = ["あ", "亜", "A", "1 2 ", "ｱa", "あ\u{301}", "\n", "今日の天気です。", "あアいイ"];
    let filled = parts.into_iter().map(|part| part.repeat(LONGEST));
    let all = filled.chain([long::caption(LONGEST), long::mixed(LONGEST), long::newlines(100)]);
    all.map(|text| {
        let text = texts::cut(&text, LONGEST).as_bytes();
        Case { rooms: MOST, ..case(false, (0, 0), text) }
    })
}

/// Random texts that stay short, in rooms beyond, exact or too small by a little.
fn random() -> impl Iterator<Item = Case> {
    let mut needs = Needs::default();
    let alphabets = [Alphabet::new(cells::rusts()), Alphabet::new(cells::zeros())];
    (0..).filter_map(move |index| {
        let mut random = Random::new(0x5EED, index);
        let zeros = random.once_in(3);
        let text = texts::random(&mut random, &alphabets[usize::from(zeros)]);
        let case = case(zeros, random.one_of(&OPTIONS), &text);
        let need = needs.of(&case);
        let exact = need.as_ref().map_or(SOME, CodingRooms::exact);
        let rooms = around(&mut random, exact);
        let short = text.len() + exact.coding <= SHORT;
        let few = need.is_none_or(|need| need.states <= FEW);
        fitting(Case { rooms, ..case }).filter(|_| short && few)
    })
}

/// Mostly rooms beyond the exact ones.
fn around(random: &mut Random, exact: CodingRooms) -> CodingRooms {
    let CodingRooms { store, coding } = exact;
    let (numbers, more) = (random.below(12), random.below(20));
    match random.below(8) {
        0 => CodingRooms { store: store.saturating_sub(1 + numbers), coding: coding + more },
        1 => CodingRooms { store: store + numbers, coding: coding.saturating_sub(1 + more / 6) },
        2 | 3 => exact,
        _ => CodingRooms { store: store + numbers, coding: coding + more },
    }
}

/// A case with no store and no buffer.
fn case(zeros: bool, (initial, width): (u32, u32), text: &[u8]) -> Case {
    Case { zeros, initial, width, input: text.to_vec(), rooms: CodingRooms::default() }
}

/// The case, if its rooms and its text are not too great.
fn fitting(case: Case) -> Option<Case> {
    let CodingRooms { store, coding } = case.rooms;
    let fits = store <= MOST.store && coding <= MOST.coding && case.input.len() <= LONGEST;
    fits.then_some(case)
}

/// The model with both tables, each of which it is lent once.
#[derive(Default)]
struct Needs([Coder; 2]);

impl Needs {
    /// Exact rooms.
    fn rooms(&mut self, case: &Case) -> CodingRooms {
        self.of(case).map_or(SOME, |coding| CodingRooms::exact(&coding))
    }

    /// The coding of the case's text, none if it is refused.
    fn of(&mut self, case: &Case) -> Option<Coding> {
        self.0[usize::from(case.zeros)].code(&case.call()).ok()
    }
}
