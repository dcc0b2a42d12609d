//! Decoding as docs/01-scope.md tells it, written apart from the Rust and from the Rattle:
//! a machine that takes one step at a time over a stack of stretches of the input, first how
//! far the step reaches, then what it does.

mod between;
mod characters;
mod effects;
mod extent;
mod macros;
mod output;
pub(crate) mod sets;
pub(crate) mod tables;

pub use between::{Between, between, places, read_on};
use extent::Extent;
use sets::Set;

use crate::private_use;

/// How many numbers an issue is.
pub const ISSUE: usize = 5;

/// Offset, kind, two fields and position: the bytes of text at the moment of report, before the
/// placeholder or marks it brings, waiting marks not counted.
pub type Issue = [u32; ISSUE];

/// What decoding gives.
#[derive(Debug, Clone, Default, PartialEq, Eq)]
pub struct Reading {
    /// UTF-8 bytes.
    pub text: Vec<u8>,
    /// In order of report.
    pub issues: Vec<Issue>,
    /// The lengths of the macro bodies that ran.
    pub charge: usize,
}

impl Reading {
    /// The counts of `arib_decode`: those of `arib_measure`, and the private-use characters.
    pub fn counts(&self) -> [usize; 5] {
        let [place, text, issues, charge] = self.measured();
        [place, text, issues, charge, self.private_use()]
    }

    /// The counts of `arib_measure`: place, bytes of text, issues, charge.
    pub fn measured(&self) -> [usize; 4] {
        [0, self.text.len(), self.issues.len(), self.charge]
    }

    /// The private-use characters in its text.
    pub fn private_use(&self) -> usize {
        private_use::count(self.as_str())
    }

    /// Its text.
    pub fn as_str(&self) -> &str {
        str::from_utf8(&self.text).expect("the model writes UTF-8")
    }
}

/// Decodes `input` into `reading`. The cell table has 8,836 numbers; an option that is not 1
/// counts as 0.
pub fn read(cells: &[u16], initial: u32, width: u32, input: &[u8], reading: &mut Reading) {
    Machine::new(cells, initial == 1, width == 1, input, reading).run();
}

/// A part of the input that is being read.
#[derive(Clone, Copy, Default)]
struct Stretch {
    /// The place of the next byte.
    at: usize,
    end: usize,
    /// In a macro's body: the outermost caller's offset.
    caller: Option<u32>,
}

/// The input itself and at most four open bodies.
const OPEN: usize = 5;

struct Machine<'a> {
    cells: &'a [u16],
    input: &'a [u8],
    annex_e: bool,
    reading: &'a mut Reading,

    /// The sets of G0 to G3, and the elements in GL and GR.
    elements: [Set; 4],
    gl: usize,
    gr: usize,
    /// Size Small, Middle or SZX 60.
    narrow_size: bool,
    repeat: Option<u32>,
    /// Waiting marks, each with its offset.
    marks: Vec<(char, u32)>,

    /// The macro bodies' places in the input.
    bodies: [Option<(u32, u32)>; 128],
    /// What macro bodies may still charge.
    remaining: usize,
    open: [Stretch; OPEN],
    /// How many of `open` are in use.
    depth: usize,
}

impl<'a> Machine<'a> {
    fn new(
        cells: &'a [u16],
        caption: bool,
        annex_e: bool,
        input: &'a [u8],
        reading: &'a mut Reading,
    ) -> Self {
        reading.text.clear();
        reading.issues.clear();
        reading.charge = 0;
        let whole = Stretch { at: 0, end: input.len(), caller: None };
        let mut open = [Stretch::default(); OPEN];
        open[0] = whole;
        Machine {
            cells,
            input,
            annex_e,
            reading,
            elements: sets::at_start(caption),
            gl: 0,
            gr: 2,
            narrow_size: false,
            repeat: None,
            marks: Vec::new(),
            bodies: [None; 128],
            remaining: 64 * input.len() + 4096,
            open,
            depth: 1,
        }
    }

    /// Takes all steps that are left, and releases the marks.
    fn run(mut self) {
        while self.advance() {}
        self.release_marks();
    }

    /// Takes one step in the innermost stretch, or leaves it; false once the input is read.
    fn advance(&mut self) -> bool {
        let top = self.depth - 1;
        let Stretch { at, end, caller } = self.open[top];
        if at == end {
            self.depth = top;
            return top > 0;
        }
        let used = self.step(&self.input[at..end], at, caller.unwrap_or(at as u32));
        self.open[top].at = at + used;
        true
    }

    /// One step at `place` of the input; gives the bytes used.
    fn step(&mut self, rest: &'a [u8], place: usize, offset: u32) -> usize {
        match rest[0] {
            0x21..=0x7E => self.character(rest, self.gl, offset),
            0xA1..=0xFE => self.character(rest, self.gr, offset),
            0x19 => self.single_shift(rest, 2, offset),
            0x1D => self.single_shift(rest, 3, offset),
            _ => self.control(rest, place, offset),
        }
    }

    /// One character of G2 or G3, in either half.
    fn single_shift(&mut self, rest: &'a [u8], element: usize, offset: u32) -> usize {
        match rest.get(1) {
            None => self.report(offset, 4, 0, 0),
            Some(0x21..=0x7E | 0xA1..=0xFE) => {
                return 1 + self.character(&rest[1..], element, offset);
            }
            Some(_) => self.report(offset, 11, 0, 0),
        }
        1
    }

    /// A control or an escape.
    fn control(&mut self, rest: &'a [u8], place: usize, offset: u32) -> usize {
        match extent::of(rest) {
            Extent::Whole(used) => {
                self.effect(&rest[..used], place, offset);
                used
            }
            Extent::Short => {
                self.report(offset, 4, 0, 0);
                rest.len()
            }
            Extent::Malformed(used) => {
                self.report(offset, 3, rest[0].into(), 0);
                used
            }
            Extent::Undefined => {
                self.report(offset, 2, rest[0].into(), 0);
                1
            }
        }
    }
}
