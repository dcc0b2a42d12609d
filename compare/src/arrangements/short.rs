//! The corners; every character by every candidate in every way; every pair of controls.

use super::{Found, Holder, Runs};
use crate::arrangement::{Arrangement, Control, Station, Way};
use crate::call::{Call, under_all};
use crate::cells;
use crate::coding::Candidate;
use crate::difference::Held;
use crate::model::tables::MARKS;
use crate::random::Random;
use crate::texts::{Alphabet, corners, samples};

/// How many codings of each corner.
const CODINGS: usize = 20;

/// The corners that are accepted, under all options, with the Rust's table and with zeros.
pub fn corners(runs: &Runs) -> Found {
    let list: Vec<_> = corners::all().collect();
    runs.each(list.len() as u64, |holder, index| {
        let mut random = Random::new(runs.seed ^ 0xC0, index);
        let text = list[index as usize];
        let calls = [cells::rusts(), cells::zeros()].map(|cells| under_all(cells, text));
        for &text in calls.as_flattened() {
            let Some(choices) = holder.choices(text) else { continue };
            for _ in 0..CODINGS {
                let station = Station::any(&mut random);
                let coding = station.arrange(&mut random, text.initial == 1, &choices);
                holder.hold_at_every_length(text, &coding)?;
            }
        }
        Ok(())
    })
}

/// Every character of the Rust's table and of the one-byte tables alone, and each mark before its
/// base, under all options.
pub fn every_way(runs: &Runs) -> Found {
    let characters = Alphabet::new(cells::rusts()).all();
    let marked = MARKS.map(|(_, _, mark)| format!("あ{mark}"));
    let texts: Vec<_> = characters.iter().map(char::to_string).chain(marked).collect();
    runs.each_of(&texts, |holder, text| {
        for text in under_all(cells::rusts(), text.as_bytes()) {
            let choices = holder.choices(text).unwrap_or_default();
            let Some((first, rest)) = choices.split_first() else { continue };
            first.iter().try_for_each(|candidate| each_way(holder, text, candidate, rest))?;
        }
        Ok(())
    })
}

/// A candidate by each element, designated there, through GL, through GR and single-shifted in
/// either half, as far as there is such a shift; then the rest by a terse station.
fn each_way(
    holder: &mut Holder,
    text: Call,
    candidate: &Candidate,
    rest: &[Vec<Candidate>],
) -> Held {
    let mut random = Random::new(0, 0);
    let mut write = |controls: &[Control], way| {
        let mut coding = Arrangement::new(text.initial == 1);
        candidate.narrow.into_iter().for_each(|narrow| coding.control(Control::Size(narrow)));
        controls.iter().for_each(|&control| coding.control(control));
        coding.write(candidate, way);
        Station::TERSE.go_on(&mut random, &mut coding, rest);
        holder.hold(text, &coding)
    };
    let Some(set) = candidate.number() else { return write(&[], Way::Direct) };
    for element in 0..4 {
        let designation = Control::Designation(set, element);
        write(&[designation, Control::LockingGl(element)], Way::Gl)?;
        if element > 0 {
            write(&[designation, Control::LockingGr(element)], Way::Gr)?;
        }
        let mut single = Way::GRAPHIC.into_iter().filter(|way| way.element() == Some(element));
        single.try_for_each(|way| write(&[designation], way))?;
    }
    Ok(())
}

/// Each control, then each control, then two samples by a terse station, and the second control
/// again at the end; under all options.
pub fn pairs(runs: &Runs) -> Found {
    let controls = Control::all();
    let total = (controls.len() * controls.len()) as u64;
    runs.each(total, |holder, index| {
        let mut random = Random::new(runs.seed ^ 0x9A, index);
        let [first, second] = [index as usize / controls.len(), index as usize % controls.len()];
        let text = samples::sequence(random.number() % samples::count(2), 2);
        for text in under_all(cells::rusts(), text.as_bytes()) {
            let Some(choices) = holder.choices(text) else { continue };
            let mut coding = Arrangement::new(text.initial == 1);
            coding.control(controls[first]);
            coding.control(controls[second]);
            Station::TERSE.go_on(&mut random, &mut coding, &choices);
            coding.control(controls[second]);
            holder.hold(text, &coding)?;
        }
        Ok(())
    })
}
