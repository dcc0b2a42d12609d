//! `encoding`: what it prints, and texts for it.

use super::feed::{ENDING, Feed, nth};
use super::hold::{Given, Holder};
use super::run::{Program::Encoding, Said};
use super::{Found, Runs};
use crate::call::{Call, CodingRooms, LONGEST_TEXT, question};
use crate::coding::{Coder, Coding};
use crate::difference::{Difference, digits};
use crate::random::Random;
use crate::texts::{self, Alphabet, corners, long, samples};
use crate::{cells, titles};

/// Its store and its buffer.
const ROOMS: CodingRooms = CodingRooms { store: 1_048_576, coding: 65_529 };

/// What it must say.
pub fn said(holder: &mut Holder, call: Call) -> Result<Said, Difference> {
    let number = call.text_questions();
    if number == 0 {
        if call.cells == cells::rusts() {
            holder.coder.code_both(call)?;
        } else {
            holder.coder.code(call)?;
        }
    }
    let answer = question(number).and_then(|()| {
        let coding = holder.coder.answer()?;
        question(ROOMS.questions(coding))?;
        Ok(coding)
    });
    holder.tally.answers[answer.map_or_else(|refusal| refusal.number, |_| 0) as usize] += 1;
    Ok(answer.map_or_else(Said::refused, |coding| Said::of(lines(coding))))
}

/// The lines of a coding.
fn lines(Coding { bytes, gap, .. }: &Coding) -> String {
    format!("coding {} gap {gap}\n{}\n", bytes.len(), digits(bytes))
}

/// The corners, each sample, the titles, with a newline too, and random texts, each in one of the
/// ways.
pub fn texts(runs: &Runs) -> Found {
    let alphabet = Alphabet::new(cells::rusts());
    let random = |index| texts::random(&mut Random::new(runs.seed, index), &alphabet);
    let fixed = corners::all().chain(samples::SAMPLES.iter().map(|sample| sample.as_bytes()));
    let mut all: Vec<_> = fixed.map(<[u8]>::to_vec).collect();
    for title in titles::texts() {
        all.extend([title.as_bytes().to_vec(), format!("{title}\n").into_bytes()]);
    }
    all.extend((0..runs.amount.random).map(random));
    runs.each(all.len() as u64, |holder, index| {
        let text = &all[index as usize];
        holder.run(Encoding, Given::rusts(text, nth(index, text)))
    })
}

/// 0, 1, the longest, beside it, far more, in every way; and what does not end.
pub fn lengths(runs: &Runs) -> Found {
    let mut all = vec![];
    for length in
        [0, 1, 2, 4_096, LONGEST_TEXT - 1, LONGEST_TEXT, LONGEST_TEXT + 1, 65_536, 1 << 20]
    {
        // Cut within a character it is ill-formed, unless it is too long.
        for part in ["A", "あ", "\n", "あ\u{301}"] {
            let text: Vec<u8> = part.bytes().cycle().take(length).collect();
            all.extend(ENDING.map(|feed| (text.clone(), feed)));
        }
    }
    all.push((vec![b'A'; LONGEST_TEXT + 1], Feed::Endless));
    runs.each_of(&all, |holder, (text, feed)| holder.run(Encoding, Given::rusts(text, *feed)))
}

/// Texts whose search just has the store that it needs, and just has not.
pub fn store(runs: &Runs) -> Found {
    let mut all = vec![];
    for text in [long::caption(LONGEST_TEXT), long::mixed(3_000), long::newlines(400)] {
        let fitting = fitting(&text);
        assert!(fitting < text.len(), "a text that outgrows the store");
        let next = text.ceil_char_boundary(fitting + 1);
        all.extend([fitting, next, text.len()].map(|end| text[..end].to_string()));
    }
    runs.each_of(&all, |holder, text| {
        holder.run(Encoding, Given::rusts(text.as_bytes(), Feed::Pipe))
    })
}

/// As many bytes of a text as the store suffices for, by halving: a longer one needs more.
fn fitting(text: &str) -> usize {
    let mut model = Coder::default();
    let (mut fits, mut fails) = (0, text.len() + 1);
    loop {
        let end = text.floor_char_boundary((fits + fails) / 2);
        if end <= fits {
            return fits;
        }
        let call =
            Call { cells: cells::rusts(), initial: 0, width: 0, input: &text.as_bytes()[..end] };
        match model.code(&call) {
            Ok(coding) if ROOMS.questions(&coding) == 0 => fits = end,
            _ => fails = end,
        }
    }
}
