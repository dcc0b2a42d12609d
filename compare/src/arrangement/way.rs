//! From where a character's code is read.

use crate::model::sets;

#[derive(Debug, Clone, Copy, PartialEq, Eq)]
pub enum Way {
    /// SP and newline need no set.
    Direct,
    Gl,
    Gr,
    /// Single-shifted from G2 or G3, the code in GL's half or in GR's.
    Single {
        element: usize,
        right: bool,
    },
}

impl Way {
    /// How many there are.
    pub const NUMBERS: usize = 7;

    /// Those that read a set.
    pub const GRAPHIC: [Way; 6] = [
        Way::Gl,
        Way::Gr,
        Way::Single { element: 2, right: false },
        Way::Single { element: 2, right: true },
        Way::Single { element: 3, right: false },
        Way::Single { element: 3, right: true },
    ];

    /// Its place among them, from 1; 0 for the one that reads none.
    pub fn number(self) -> usize {
        Way::GRAPHIC.iter().position(|&way| way == self).map_or(0, |place| 1 + place)
    }

    /// The element that is single-shifted.
    pub fn element(self) -> Option<usize> {
        match self {
            Way::Single { element, .. } => Some(element),
            _ => None,
        }
    }

    /// What stands before the code.
    pub fn shift(self) -> &'static [u8] {
        self.element().map_or(&[][..], sets::single)
    }

    /// What each byte of the code has beside its form in GL.
    pub fn half(self) -> u8 {
        match self {
            Way::Gr | Way::Single { right: true, .. } => 0x80,
            _ => 0,
        }
    }
}
