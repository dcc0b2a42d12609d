//! Ways to write a code of a set from a state (000: `ways`).

use super::state::{SETS, State};
use crate::model::sets;

/// From where the code is read.
#[derive(Debug, Clone, Copy, PartialEq, Eq)]
pub enum Invocation {
    /// The element stands in GL, or in GR.
    Gl,
    Gr,
    /// A locking shift puts it there.
    LockingGl,
    LockingGr,
    /// A single shift, GL's form.
    Single,
}

use Invocation::{Gl, Gr, LockingGl, LockingGr, Single};

const INVOCATIONS: [Invocation; 5] = [Gl, Gr, LockingGl, LockingGr, Single];

/// One way: an element, with its designation where it does not hold the set.
#[derive(Debug, Clone, Copy, PartialEq, Eq)]
pub struct Way {
    pub element: usize,
    pub designated: bool,
    pub by: Invocation,
}

impl Way {
    /// The way as a number below 64.
    pub fn packed(self) -> u32 {
        (self.element as u32) << 4 | u32::from(self.designated) << 3 | self.by as u32
    }

    pub fn unpacked(number: u32) -> Way {
        let by = INVOCATIONS[(number & 7) as usize];
        Way { element: (number >> 4 & 3) as usize, designated: number >> 3 & 1 == 1, by }
    }

    /// The bytes before the code: designation and shift.
    pub fn length(self, set: usize) -> usize {
        let designation =
            if self.designated { sets::designation_length(SETS[set], self.element) } else { 0 };
        let shift = match self.by {
            Gl | Gr => 0,
            Single => 1,
            LockingGl => 1 + usize::from(self.element > 1),
            LockingGr => 2,
        };
        designation + shift
    }
}

/// Does `each` for every way and the state that it leaves, in the order of trial: GL and GR if
/// one of them has the set, else element by element.
pub fn each_way(state: State, set: usize, mut each: impl FnMut(Way, State)) {
    let invoked = [(state.gl(), Gl), (state.gr(), Gr)];
    let mut found = false;
    for (element, by) in invoked {
        if state.set(element) == set {
            each(Way { element, designated: false, by }, state);
            found = true;
        }
    }
    if !found {
        (0..4).for_each(|element| by_element(state, set, element, &mut each));
    }
}

/// The ways by one element: as it stands in GL or GR, else by each shift that there is.
fn by_element(state: State, set: usize, element: usize, each: &mut impl FnMut(Way, State)) {
    let designated = state.set(element) != set;
    let state = state.with_set(element, set);
    let mut by = |by, state| each(Way { element, designated, by }, state);
    let (in_gl, in_gr) = (state.gl() == element, state.gr() == element);
    if in_gl {
        by(Gl, state);
    }
    if in_gr {
        by(Gr, state);
    }
    if in_gl || in_gr {
        return;
    }
    by(LockingGl, state.with_gl(element));
    if element > 0 {
        by(LockingGr, state.with_gr(element));
    }
    if element > 1 {
        by(Single, state);
    }
}
