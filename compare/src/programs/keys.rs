//! Well-formed lines for `keys`.

use super::feed::nth;
use super::hold::Given;
use super::run::Program::Keys;
use super::{Found, Runs};
use crate::call::LONGEST;
use crate::difference::digits;
use crate::inputs::{self, bombs, long};
use crate::random::Random;
use crate::titles;

/// NUMBER TAB HEX and a newline.
pub fn line(number: &str, title: &[u8]) -> Vec<u8> {
    format!("{number}\t{}\n", digits(title)).into()
}

/// The corners, the titles, random inputs and long ones; some lines in a file, one, and all.
pub fn titles(runs: &Runs) -> Found {
    let lines = lines(runs);
    let mut files: Vec<_> = lines.chunks(7).map(<[_]>::concat).collect();
    files.extend(lines.iter().step_by(9).cloned());
    let long: Vec<_> = longest().iter().map(|title| line("1", title)).collect();
    files.extend([lines.concat(), long.join(&line("2", &[0xA2])[..])]);
    files.extend(long);
    runs.each(files.len() as u64, |holder, index| {
        let file = &files[index as usize];
        holder.run(Keys, Given::rusts(file, nth(index, file)))
    })
}

/// A line for each corner, title and random input.
fn lines(runs: &Runs) -> Vec<Vec<u8>> {
    let titles = titles::all();
    let random = |index| inputs::random(&mut Random::new(runs.seed, index), &titles);
    let fixed = inputs::every_corner().into_iter().chain(titles.clone());
    let all = fixed.chain((0..runs.amount.random).map(random));
    let mut random = Random::new(!runs.seed, 0);
    all.map(|title| numbered(&mut random, &title)).collect()
}

/// A line with a random number, its digits in one of the cases or in both; in some a carriage
/// return.
fn numbered(random: &mut Random, title: &[u8]) -> Vec<u8> {
    let number = match random.below(4) {
        0 => {
            random.one_of(&["0", "00", "7", "007", "0000000000", "4294967295", "0000000001"]).into()
        }
        1 => random.below(1 << 32).to_string(),
        _ => random.below(100_000).to_string(),
    };
    let mut line = line(&number, title);
    match random.below(3) {
        0 => line.make_ascii_lowercase(),
        1 => line.iter_mut().step_by(3).for_each(|b| b.make_ascii_lowercase()),
        _ => {}
    }
    if random.once_in(3) {
        line.insert(line.len() - 1, b'\r');
    }
    line
}

/// Titles of 65,535 bytes: text that just fits, text that does not, issues, private-use characters;
/// and shorter ones whose bodies give more than 64 bytes a byte.
fn longest() -> Vec<Vec<u8>> {
    let mut all: Vec<_> =
        [1, 5, 6, 7, 8].map(|index| long::long(&mut Random::new(0, index), index)).into();
    all.push(vec![0x0D; LONGEST]);
    all.push([0x30, 0x21].repeat(LONGEST / 2));
    // 92-26: question 11; with an undefined control behind it question 10 comes before.
    let symbols = [0x7C, 0x3A].repeat(LONGEST / 2);
    all.extend([[&symbols[..], &[0xA0]].concat(), symbols]);
    all.push(bombs::called(&[0x98, 0x7F, 0xA2], 40));
    all.push(bombs::called(&[0xA2; 65], 200));
    all
}
