//! What a part of the runs has counted.

use std::fmt::{self, Display, Formatter};

/// What adds up.
pub trait Sum {
    fn add(&mut self, other: &Self);
}

impl Sum for u64 {
    fn add(&mut self, other: &u64) {
        *self += other;
    }
}

impl<const N: usize> Sum for [u64; N] {
    fn add(&mut self, other: &[u64; N]) {
        self.iter_mut().zip(other).for_each(|(sum, n)| *sum += n);
    }
}

/// The greatest number seen.
#[derive(Debug, Clone, Copy, Default)]
pub struct Greatest(usize);

impl Greatest {
    pub fn see(&mut self, n: usize) {
        self.0 = self.0.max(n);
    }
}

impl Sum for Greatest {
    fn add(&mut self, other: &Greatest) {
        self.see(other.0);
    }
}

impl Display for Greatest {
    fn fmt(&self, f: &mut Formatter<'_>) -> fmt::Result {
        self.0.fmt(f)
    }
}

/// Defines counts that add up one by one.
macro_rules! tally {
    ($(#[$doc:meta])* pub struct $name:ident { $($(#[$of:meta])* pub $field:ident: $type:ty,)* }) => {
        $(#[$doc])*
        #[derive(Debug, Clone, Default)]
        pub struct $name {
            $($(#[$of])* pub $field: $type,)*
        }

        impl $crate::tally::Sum for $name {
            fn add(&mut self, other: &$name) {
                $($crate::tally::Sum::add(&mut self.$field, &other.$field);)*
            }
        }
    };
}

pub(crate) use tally;

tally! {
    /// Positions of issues that were compared, and how many of them are not 0.
    pub struct Positions {
        pub compared: u64,
        pub behind: u64,
    }
}

impl Positions {
    pub fn see(&mut self, positions: impl Iterator<Item = u32>) {
        for position in positions {
            self.compared += 1;
            self.behind += u64::from(position > 0);
        }
    }
}

impl Display for Positions {
    fn fmt(&self, f: &mut Formatter<'_>) -> fmt::Result {
        let Positions { compared, behind } = self;
        write!(f, "{compared} positions of issues compared, {behind} of them not 0")
    }
}

tally! {
    /// Private-use characters that were counted, and how many readings have any.
    pub struct PrivateUse {
        pub counted: u64,
        pub readings: u64,
    }
}

impl PrivateUse {
    /// A reading with so many.
    pub fn see(&mut self, count: usize) {
        self.counted += count as u64;
        self.readings += u64::from(count > 0);
    }
}

impl Display for PrivateUse {
    fn fmt(&self, f: &mut Formatter<'_>) -> fmt::Result {
        let PrivateUse { counted, readings } = self;
        write!(f, "{counted} private-use characters counted, in {readings} readings")
    }
}

/// ` number:count` for each that is not 0.
pub fn by_number(counts: &[u64]) -> String {
    let seen = counts.iter().enumerate().filter(|(_, n)| **n > 0);
    seen.map(|(number, n)| format!(" {number}:{n}")).collect()
}
