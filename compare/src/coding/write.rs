//! The bytes of one step of the coding.

use super::candidates::Candidate;
use super::state::SETS;
use super::ways::{Invocation, Way};
use crate::model::sets::{self, Set};

pub const MSZ: u8 = 0x89;
pub const NSZ: u8 = 0x8A;

/// A size control where one is needed, the way's bytes, then the code.
pub fn put(out: &mut Vec<u8>, candidate: &Candidate, sized: bool, way: Way) {
    if sized {
        out.push(if candidate.narrow == Some(true) { MSZ } else { NSZ });
    }
    if let Some(set) = candidate.set {
        put_way(out, SETS[set], way);
    }
    let in_gr = matches!(way.by, Invocation::Gr | Invocation::LockingGr);
    let half = if candidate.set.is_some() && in_gr { 0x80 } else { 0 };
    out.extend(candidate.code().iter().map(|byte| byte | half));
}

fn put_way(out: &mut Vec<u8>, set: Set, way: Way) {
    if way.designated {
        out.extend(sets::designation(set, way.element));
    }
    out.extend_from_slice(match way.by {
        Invocation::Gl | Invocation::Gr => &[],
        Invocation::LockingGl => sets::locking_gl(way.element),
        Invocation::LockingGr => sets::locking_gr(way.element),
        Invocation::Single => sets::single(way.element),
    });
}
