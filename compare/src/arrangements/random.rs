//! Random texts, each arranged by two stations or more, and long codings.

use super::{Found, Holder, Runs};
use crate::arrangement::{Arrangement, Control, Station};
use crate::call::{Call, LONGEST, under_all};
use crate::cells;
use crate::coding::Candidate;
use crate::difference::{Difference, Held};
use crate::random::Random;
use crate::texts::{self, Alphabet, long};

/// Of the random texts one in so many is keyed in buffers of every length.
const EVERY_LENGTH: usize = 20;

/// How many texts are coded with one table.
const TEXTS: u64 = 40;

/// Two codings of a text, by two stations.
fn two(random: &mut Random, text: Call, choices: &[Vec<Candidate>]) -> [Arrangement; 2] {
    [(); 2].map(|()| Station::any(random).arrange(random, text.initial == 1, choices))
}

/// A text of every mixture that the call accepts, under one pair of options, and its candidates.
fn accepted<T>(
    holder: &mut Holder,
    random: &mut Random,
    (cells, alphabet): (&[u16], &Alphabet),
    then: impl FnOnce(&mut Holder, &mut Random, Call, &[Vec<Candidate>]) -> Result<T, Difference>,
) -> Result<T, Difference> {
    loop {
        let text = texts::random(random, alphabet);
        let text = random.one_of(&under_all(cells, &text));
        if let Some(choices) = holder.choices(text) {
            return then(holder, random, text, &choices);
        }
    }
}

/// Random texts with the Rust's table, two codings each.
pub fn random(runs: &Runs) -> Found {
    let alphabet = Alphabet::new(cells::rusts());
    runs.each(runs.amount.random / 2, |holder, index| {
        let mut random = Random::new(runs.seed, index);
        accepted(holder, &mut random, (cells::rusts(), &alphabet), in_two)
    })
}

/// Zeros, then tables with odd cells: one text by such a table for ten random ones.
pub fn tables(runs: &Runs) -> Found {
    let total = (runs.amount.random / 20 / TEXTS).max(20);
    runs.each(total, |holder, index| {
        let mut random = Random::new(runs.seed ^ 0xCE11, index);
        let cells = cells::other(&mut random, index);
        let alphabet = Alphabet::new(&cells);
        (0..TEXTS).try_for_each(|_| accepted(holder, &mut random, (&cells, &alphabet), in_two))
    })
}

/// Both codings are read and keyed alike.
fn in_two(
    holder: &mut Holder,
    random: &mut Random,
    text: Call,
    choices: &[Vec<Candidate>],
) -> Held {
    let codings = two(random, text, choices);
    if random.once_in(EVERY_LENGTH) {
        codings.iter().try_for_each(|coding| holder.hold_at_every_length(text, coding))
    } else {
        codings.iter().try_for_each(|coding| holder.hold(text, coding))
    }
}

/// Random texts whose coding is searched for: the two codings against its length and gap.
pub fn floors(runs: &Runs) -> Found {
    let alphabet = Alphabet::new(cells::rusts());
    runs.each(runs.amount.random / 50, |holder, index| {
        let mut random = Random::new(runs.seed ^ 0x6A9, index);
        accepted(
            holder,
            &mut random,
            (cells::rusts(), &alphabet),
            |holder, random, text, choices| {
                let terse = Station::TERSE.arrange(random, text.initial == 1, choices);
                let [any, _] = two(random, text, choices);
                holder.against_gap(text, &terse)?;
                holder.against_gap(text, &any)
            },
        )
    })
}

/// Random texts, two codings each in one catalogue.
pub fn catalogue(runs: &Runs) -> Found {
    let alphabet = Alphabet::new(cells::rusts());
    runs.each(runs.amount.random / 100, |holder, index| {
        let mut random = Random::new(runs.seed ^ 0xCA7, index);
        accepted(
            holder,
            &mut random,
            (cells::rusts(), &alphabet),
            |holder, random, text, choices| {
                let [first, second] = two(random, text, choices);
                holder.together(index, text, [&first, &second])
            },
        )
    })
}

/// Long texts, filled with controls up to 65,535 bytes, and to one byte more, which is 3.
pub fn long(runs: &Runs) -> Found {
    let alphabet = Alphabet::new(cells::rusts());
    runs.each(long::COUNT, |holder, index| {
        let mut random = Random::new(!runs.seed, index);
        let text = long::long(&mut random, &alphabet, index);
        for text in under_all(cells::rusts(), &text) {
            let Some(choices) = holder.choices(text) else { continue };
            let mut coding = Station::TERSE.arrange(&mut random, text.initial == 1, &choices);
            assert!(coding.bytes.len() < LONGEST, "room for controls");
            fill(&mut random, &mut coding);
            holder.hold(text, &coding)?;
            coding.control(Control::Size(true));
            holder.too_long(text, &coding)?;
        }
        Ok(())
    })
}

/// Controls at the end, up to the greatest length.
fn fill(random: &mut Random, coding: &mut Arrangement) {
    while coding.bytes.len() < LONGEST {
        let control = Control::any(random);
        let fits = coding.bytes.len() + control.bytes().len() <= LONGEST;
        coding.control(if fits { control } else { Control::Size(false) });
    }
}
