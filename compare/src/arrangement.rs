//! Admissible codings as 01 tells them: characters in their order, each by one of its candidates
//! from a set then invoked or single-shifted; designations, locking shifts, MSZ and NSZ anywhere.

mod control;
mod station;
mod way;

pub use control::Control;
pub use station::Station;
pub use way::Way;

use crate::coding::Candidate;
use crate::model::sets::{self, Set};
use crate::tally::tally;

tally! {
    /// What codings hold.
    pub struct Contents {
        /// Designations by set and by element; locking shifts, LS0 to LS3 and LS1R to LS3R; MSZ and
        /// NSZ.
        pub designations: [u64; 32],
        pub elements: [u64; 4],
        pub locking: [u64; 7],
        pub sizes: [u64; 2],
        /// Characters by `Way::number`.
        pub characters: [u64; Way::NUMBERS],
    }
}

/// A coding that is being written, and the state in which its bytes so far leave a reader.
#[derive(Clone)]
pub struct Arrangement {
    pub bytes: Vec<u8>,
    pub contents: Contents,
    elements: [Set; 4],
    gl: usize,
    gr: usize,
    narrow: bool,
}

impl Arrangement {
    /// The start state of Si, or of Caption.
    pub fn new(caption: bool) -> Arrangement {
        let (bytes, contents) = Default::default();
        Arrangement {
            bytes,
            contents,
            elements: sets::at_start(caption),
            gl: 0,
            gr: 2,
            narrow: false,
        }
    }

    pub fn control(&mut self, control: Control) {
        self.bytes.extend(control.bytes());
        match control {
            Control::Designation(set, element) => {
                self.elements[element] = set;
                self.contents.designations[set as usize] += 1;
                self.contents.elements[element] += 1;
            }
            Control::LockingGl(element) => {
                self.gl = element;
                self.contents.locking[element] += 1;
            }
            Control::LockingGr(element) => {
                self.gr = element;
                self.contents.locking[3 + element] += 1;
            }
            Control::Size(narrow) => {
                self.narrow = narrow;
                self.contents.sizes[usize::from(!narrow)] += 1;
            }
        }
    }

    /// In which ways the candidate can be written as things stand.
    pub fn ways(&self, candidate: &Candidate) -> Vec<Way> {
        if !self.is_sized(candidate) {
            return vec![];
        }
        match candidate.number() {
            None => vec![Way::Direct],
            Some(set) => Way::GRAPHIC.into_iter().filter(|way| self.set(way) == set).collect(),
        }
    }

    /// Whether a candidate goes under the size as it stands.
    pub fn is_sized(&self, candidate: &Candidate) -> bool {
        candidate.narrow.is_none_or(|narrow| narrow == self.narrow)
    }

    /// The candidate in one of these ways.
    pub fn write(&mut self, candidate: &Candidate, way: Way) {
        self.bytes.extend_from_slice(way.shift());
        self.bytes.extend(candidate.code().iter().map(|byte| byte | way.half()));
        self.contents.characters[way.number()] += 1;
    }

    /// The set that a graphic way reads.
    fn set(&self, way: &Way) -> Set {
        self.elements[match *way {
            Way::Direct | Way::Gl => self.gl,
            Way::Gr => self.gr,
            Way::Single { element, .. } => element,
        }]
    }
}
