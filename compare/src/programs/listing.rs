//! `listing`: what it prints, and inputs for it.

use oracle::coding::refusal;

use super::feed::{ENDING, Feed, nth};
use super::hold::{Given, Holder};
use super::run::{Program::Listing, Said};
use super::{Found, Runs};
use crate::call::{Call, Rooms};
use crate::difference::{Difference, digits};
use crate::inputs::{self, bombs};
use crate::model::{ISSUE, Issue, Reading};
use crate::random::Random;
use crate::titles;

/// The longest input that it takes.
const LONGEST: usize = 4_096;

/// Its buffers.
const ROOMS: Rooms = Rooms { text: 65_536, issues: 256 * ISSUE };

/// What it must say.
pub fn said(holder: &mut Holder, call: Call) -> Result<Said, Difference> {
    let mut number = call.questions();
    if number == 0 && call.input.len() > LONGEST {
        number = 3;
    }
    if number == 0 {
        holder.read(call)?;
        number = ROOMS.questions(holder.reader.reading());
    }
    holder.tally.answers[number as usize] += 1;
    Ok(match number {
        0 => Said::of(lines(holder.reader.reading())),
        _ => Said::refused(refusal(number, 0)),
    })
}

/// The lines of a reading.
fn lines(reading: &Reading) -> String {
    let Reading { text, issues, charge } = reading;
    let (length, count) = (text.len(), issues.len());
    let issue = |numbers: &Issue| numbers.map(|n| n.to_string()).join(" ") + "\n";
    let issues: String = issues.iter().map(issue).collect();
    format!("text {length} issues {count} charged {charge}\n{}\n{issues}", digits(text))
}

/// The corners, the titles and random inputs, each in one of the ways.
pub fn inputs(runs: &Runs) -> Found {
    let titles = titles::all();
    let random = |index| inputs::random(&mut Random::new(runs.seed, index), &titles);
    let fixed = inputs::every_corner().into_iter().chain(titles.clone());
    let all: Vec<_> = fixed.chain((0..runs.amount.random).map(random)).collect();
    runs.each(all.len() as u64, |holder, index| {
        let input = &all[index as usize];
        holder.run(Listing, Given::rusts(input, nth(index, input)))
    })
}

/// 0, 1, the longest, beside it, far more, in every way; and what does not end.
pub fn lengths(runs: &Runs) -> Found {
    let mut all = vec![];
    for length in [0, 1, 2, LONGEST - 1, LONGEST, LONGEST + 1, 2 * LONGEST, 65_535, 65_536, 1 << 20]
    {
        for input in filled(runs.seed, length) {
            all.extend(ENDING.map(|feed| (input.clone(), feed)));
        }
    }
    all.extend(filled(runs.seed, LONGEST + 1).map(|input| (input, Feed::Endless)));
    runs.each_of(&all, |holder, (input, feed)| holder.run(Listing, Given::rusts(input, *feed)))
}

/// Inputs of this length: kana, kanji, titles and pieces.
fn filled(seed: u64, length: usize) -> [Vec<u8>; 4] {
    let pieces = inputs::pieces(&mut Random::new(seed, length as u64), length.min(70_000) + 1);
    let parts = [vec![0xA2], vec![0x30, 0x21], titles::all().concat(), pieces];
    parts.map(|part| part.iter().copied().cycle().take(length).collect())
}

/// Text and issues that just fit and that just do not; 8 comes before 9.
pub fn rooms(runs: &Runs) -> Found {
    let undefined = |count| vec![0xA0; count];
    let texts = [65_535, 65_536, 65_537, 65_538, 70_000].map(text);
    let issues = [0, 255, 256, 257, 1_024].map(undefined);
    let both = |text: &Vec<u8>| issues.clone().map(|issues| [&text[..], &issues].concat());
    let mut all: Vec<_> = texts.iter().flat_map(both).collect();
    // In bodies: far more than fits, and issues that just fit and just do not.
    let bodies = [&[0xA2; 65][..], &[0xA0; 65], &[0x98, 0x7F, 0xA2]];
    all.extend(bodies.map(|body| bombs::called(body, LONGEST)));
    all.extend([15, 16, 17].map(|calls| called_often(&[0xA0; 16], calls)));
    runs.each(all.len() as u64, |holder, index| {
        let input = &all[index as usize];
        holder.run(Listing, Given::rusts(input, nth(index, input)))
    })
}

/// A macro of `body` that is called so often.
fn called_often(body: &[u8], calls: usize) -> Vec<u8> {
    let mut input = bombs::called(body, LONGEST);
    let call = input[LONGEST - 1];
    let before = input.iter().rposition(|&b| b != call).map_or(0, |last| last + 1);
    input.truncate(before + calls);
    input
}

/// An input whose text has so many bytes: kana, repeated, and newlines.
fn text(bytes: usize) -> Vec<u8> {
    let kana = bytes / 3;
    let mut input = [0x98, 0x7F, 0xA2].repeat(kana / 63);
    input.extend(vec![0xA2; kana % 63]);
    input.extend(vec![0x0D; bytes % 3]);
    input
}
