//! How a station arranges its controls: from hardly more than is needed to some at every character.

use super::{Arrangement, Control};
use crate::coding::Candidate;
use crate::random::Random;

/// Once in so many times, which are at least two.
#[derive(Debug, Clone, Copy)]
pub struct Station {
    /// a control stands that serves no character;
    idle: usize,
    /// a character that can be written gets one more control that serves it.
    restless: usize,
}

/// Hardly ever.
const RARELY: usize = 1 << 40;

impl Station {
    /// One that writes no control without need.
    pub const TERSE: Station = Station { idle: RARELY, restless: RARELY };

    pub fn any(random: &mut Random) -> Station {
        let idle = random.one_of(&[2, 3, 8, 30, RARELY]);
        let restless = random.one_of(&[2, 4, 20, RARELY]);
        Station { idle, restless }
    }

    /// An admissible coding, by the candidates of each character.
    pub fn arrange(
        self,
        random: &mut Random,
        caption: bool,
        choices: &[Vec<Candidate>],
    ) -> Arrangement {
        let mut arrangement = Arrangement::new(caption);
        self.go_on(random, &mut arrangement, choices);
        arrangement
    }

    /// The same behind what is written.
    pub fn go_on(
        self,
        random: &mut Random,
        arrangement: &mut Arrangement,
        choices: &[Vec<Candidate>],
    ) {
        for candidates in choices {
            let candidate = random.one_of(candidates);
            self.write(random, arrangement, &candidate);
        }
        self.idle(random, arrangement);
    }

    /// Controls, and the candidate as soon as it can be written.
    fn write(self, random: &mut Random, arrangement: &mut Arrangement, candidate: &Candidate) {
        loop {
            self.idle(random, arrangement);
            let ways = arrangement.ways(candidate);
            if !ways.is_empty() && !random.once_in(self.restless) {
                return arrangement.write(candidate, random.one_of(&ways));
            }
            let control = serving(random, arrangement, candidate);
            arrangement.control(control);
        }
    }

    fn idle(self, random: &mut Random, arrangement: &mut Arrangement) {
        while random.once_in(self.idle) {
            arrangement.control(Control::any(random));
        }
    }
}

/// A control that brings the candidate nearer: its size, its set to an element, or that element
/// into GL or GR.
fn serving(random: &mut Random, arrangement: &Arrangement, candidate: &Candidate) -> Control {
    let size = candidate.narrow.filter(|_| !arrangement.is_sized(candidate) && random.once_in(2));
    let Some(set) = candidate.number() else {
        return Control::Size(candidate.narrow.unwrap_or(random.once_in(2)));
    };
    let element = random.below(4);
    match size {
        Some(narrow) => Control::Size(narrow),
        None if arrangement.elements[element] != set => Control::Designation(set, element),
        None if element > 0 && random.once_in(2) => Control::LockingGr(element),
        None => Control::LockingGl(element),
    }
}
