//! Subjects with a fault in bookmarks.

mod returning;
mod setting;

use crate::faulty::{Faulty, Returning, SOUND, Setting};

/// A fault in words, and whether it shows in the vectors.
pub type Fault = (&'static str, bool, Faulty);

/// All of them.
pub fn faults() -> impl Iterator<Item = &'static Fault> {
    setting::FAULTS.iter().chain(&returning::FAULTS)
}

const fn sets(name: &'static str, shows: bool, set: Setting) -> Fault {
    (name, shows, Faulty { set, ..SOUND })
}

const fn returns(name: &'static str, shows: bool, go_on: Returning) -> Fault {
    (name, shows, Faulty { go_on, ..SOUND })
}
