//! What may stand anywhere between characters, and at either end.

use crate::coding::write::{MSZ, NSZ};
use crate::model::sets::{self, Set};
use crate::random::Random;

#[derive(Debug, Clone, Copy, PartialEq, Eq)]
pub enum Control {
    /// Of any of the 32 sets to any of G0 to G3.
    Designation(Set, usize),
    /// LS0 to LS3.
    LockingGl(usize),
    /// LS1R to LS3R.
    LockingGr(usize),
    /// MSZ (narrow) or NSZ.
    Size(bool),
}

use Control::{Designation, LockingGl, LockingGr, Size};

impl Control {
    /// All of them: 128 designations, seven locking shifts, two sizes.
    pub fn all() -> Vec<Control> {
        let designations =
            (0..=sets::LAST).flat_map(|set| (0..4).map(move |g| Designation(set, g)));
        let shifts = (0..4).map(LockingGl).chain((1..4).map(LockingGr));
        designations.chain(shifts).chain([Size(true), Size(false)]).collect()
    }

    /// One of a kind that is drawn first, so that shifts and sizes are not rare.
    pub fn any(random: &mut Random) -> Control {
        match random.below(4) {
            0 | 1 => Designation(random.below(sets::LAST as usize + 1) as Set, random.below(4)),
            2 => locking(random),
            _ => Size(random.once_in(2)),
        }
    }

    pub fn bytes(self) -> Vec<u8> {
        match self {
            Designation(set, element) => sets::designation(set, element),
            LockingGl(element) => sets::locking_gl(element).to_vec(),
            LockingGr(element) => sets::locking_gr(element).to_vec(),
            Size(narrow) => vec![if narrow { MSZ } else { NSZ }],
        }
    }
}

fn locking(random: &mut Random) -> Control {
    match random.below(7) {
        element @ 0..4 => LockingGl(element),
        n => LockingGr(n - 3),
    }
}
