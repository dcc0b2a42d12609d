//! The corners, sequences of samples, marks, and bytes that are not well-formed.

use super::rooms::{in_all, in_two, under_all_options, under_one};
use super::{Found, Runs, Tally};
use crate::call::under_all;
use crate::model::tables::MARKS;
use crate::random::Random;
use crate::tally::Sum;
use crate::texts::{corners, faulty, samples};
use crate::{cells, inputs};

/// The corners under all options, with the Rust's table and with zeros, in all rooms.
pub fn corners(runs: &Runs) -> Found {
    let list: Vec<_> = corners::all().collect();
    runs.each_of(&list, |holder, text| {
        under_all_options(holder, text)?;
        for call in under_all(cells::zeros(), text) {
            holder.code(call)?;
            in_all(holder, call)?;
        }
        Ok(())
    })
}

/// Every sequence of up to three samples under all options.
pub fn sequences(runs: &Runs) -> Found {
    let mut sum = Tally::default();
    for length in 1..=3 {
        let total = samples::count(length);
        sum.add(&in_order(runs, total, |index| samples::sequence(index, length))?);
    }
    Ok(sum)
}

/// Up to two marks after each pair of samples, and many marks after one.
pub fn marks(runs: &Runs) -> Found {
    let pairs = samples::count(2);
    let marks = MARKS.map(|(_, _, mark)| mark);
    let two = |index: u64| {
        let [first, second] = [index / pairs % 8, index / pairs / 8].map(|n| n as usize);
        let behind = marks.get(first).into_iter().chain(marks.get(second));
        samples::sequence(index % pairs, 2) + &behind.collect::<String>()
    };
    let many = |index| samples::sequence(index, 1) + &marks.iter().collect::<String>().repeat(3);
    let mut sum = in_order(runs, 64 * pairs, two)?;
    sum.add(&in_order(runs, samples::count(1), many)?);
    Ok(sum)
}

/// Longer lists are coded under one pair of options each text, others under all.
const MANY: u64 = 20_000;

/// The texts of all indices below `total`.
fn in_order(runs: &Runs, total: u64, text: impl Fn(u64) -> String + Sync) -> Found {
    runs.each(total, |holder, index| {
        let mut random = Random::new(runs.seed ^ 0x5A, index);
        let text = text(index);
        holder.tally.texts += 1;
        let calls = under_all(cells::rusts(), text.as_bytes());
        let one = random.below(calls.len());
        let asked = if total > MANY { &calls[one..=one] } else { &calls };
        for &call in asked {
            holder.code_both(call)?;
            in_two(holder, call, &mut random)?;
        }
        Ok(())
    })
}

/// Every string of one or two bytes, and four bytes at the limits of UTF-8; alone or behind a
/// text.
pub fn ill_formed(runs: &Runs) -> Found {
    let mut sum = behind(runs, 1 << 8, |index| inputs::numbered(index, 1)[..1].to_vec())?;
    sum.add(&behind(runs, 1 << 16, |index| inputs::numbered(index, 2)[..2].to_vec())?);
    sum.add(&behind(runs, faulty::SEQUENCES, faulty::sequence)?);
    Ok(sum)
}

/// The bytes of all indices below `total`, some of them behind a text.
fn behind(runs: &Runs, total: u64, bytes: impl Fn(u64) -> Vec<u8> + Sync) -> Found {
    runs.each(total, |holder, index| {
        let mut random = Random::new(runs.seed ^ 0x1F, index);
        let before: &str = random.one_of(&["", "", "あ", "A\u{301}", "\u{301}", "\u{1}"]);
        under_one(holder, &[before.as_bytes(), &bytes(index)].concat(), &mut random)
    })
}
