//! A reading between two of its outermost steps: what the steps before leave to those behind.

use super::sets::Set;
use super::{Machine, Reading};

/// A reading where an outermost step begins, or at the end.
#[derive(Debug, Clone, PartialEq, Eq)]
pub struct Between {
    /// The place in the input.
    pub at: usize,
    /// The sets of G0 to G3, and the elements in GL and GR.
    pub elements: [Set; 4],
    pub gl: usize,
    pub gr: usize,
    /// Size Small, Middle or SZX 60.
    pub narrow: bool,
    pub repeat: Option<u32>,
    /// Waiting marks, each with its offset.
    pub marks: Vec<(char, u32)>,
    /// The macro bodies' starts and ends in the input, by code.
    pub bodies: [Option<(u32, u32)>; 128],
    /// The charge, the bytes of text and the issues so far.
    pub charge: usize,
    pub text: usize,
    pub issues: usize,
}

/// The reading of the whole input where an outermost step of it begins at this place, which may be
/// the end.
pub fn between(
    cells: &[u16],
    initial: u32,
    width: u32,
    input: &[u8],
    place: usize,
) -> Option<Between> {
    let mut reading = Reading::default();
    let mut machine = Machine::new(cells, initial == 1, width == 1, input, &mut reading);
    while machine.outermost().is_none_or(|at| at < place) && machine.advance() {}
    (machine.outermost() == Some(place)).then(|| machine.between())
}

/// The places where outermost steps begin, and the end.
pub fn places(cells: &[u16], initial: u32, width: u32, input: &[u8]) -> Vec<usize> {
    let mut reading = Reading::default();
    let mut machine = Machine::new(cells, initial == 1, width == 1, input, &mut reading);
    let mut places = Vec::new();
    loop {
        places.extend(machine.outermost());
        if !machine.advance() {
            return places;
        }
    }
}

/// Goes on from there to the end: the text and the issues of the rest, whose positions are those of
/// the whole text, and the charge of the whole. The cell table has 8,836 numbers, an option that is
/// not 1 counts as 0, and the bodies lie within the input.
pub fn read_on(cells: &[u16], width: u32, input: &[u8], from: &Between, reading: &mut Reading) {
    let mut machine = Machine::new(cells, false, width == 1, input, reading);
    machine.open[0].at = from.at;
    machine.elements = from.elements;
    (machine.gl, machine.gr) = (from.gl, from.gr);
    machine.narrow_size = from.narrow;
    machine.repeat = from.repeat;
    machine.marks.clone_from(&from.marks);
    machine.bodies = from.bodies;
    machine.remaining -= from.charge;
    machine.reading.charge = from.charge;
    machine.run();
    reading.issues.iter_mut().for_each(|[.., position]| *position += from.text as u32);
}

impl Machine<'_> {
    /// The place of the next step, or the end, if no body is open.
    fn outermost(&self) -> Option<usize> {
        (self.depth == 1).then(|| self.open[0].at)
    }

    fn between(&self) -> Between {
        Between {
            at: self.open[0].at,
            elements: self.elements,
            gl: self.gl,
            gr: self.gr,
            narrow: self.narrow_size,
            repeat: self.repeat,
            marks: self.marks.clone(),
            bodies: self.bodies,
            charge: self.reading.charge,
            text: self.reading.text.len(),
            issues: self.reading.issues.len(),
        }
    }
}
