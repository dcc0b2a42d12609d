//! Coding as docs/01-scope.md tells it, written apart from the Rust and from the Rattle. What 01
//! leaves to 000 is 000's: the candidates, the ways, the order of trial and the ties.

mod candidates;
mod order;
mod search;
mod state;
mod ways;
pub mod write;

use oracle::coding::{Refusal, refusal};

use crate::call::Call;
use candidates::Repertoire;
use search::Search;
use state::State;

pub use candidates::Candidate;

/// A state that costs so much more than the layer's cheapest is still kept.
pub const KEPT: u32 = 10;

/// A state of the layer that is reached, or of the one before it, takes so many numbers of the
/// store, a state of an older layer one.
pub const STATE: usize = 4;

/// What coding gives.
#[derive(Debug, Clone, Default, PartialEq, Eq)]
pub struct Coding {
    pub bytes: Vec<u8>,
    pub gap: usize,
    /// How many numbers the store must have.
    pub numbers: usize,
    /// The most states at a layer, those kept in all layers before it and those reached in it. A
    /// store with four numbers for each suffices.
    pub states: usize,
    /// How many states were dropped, over all layers.
    pub dropped: u64,
}

/// The model, with what it keeps from text to text.
pub struct Coder {
    repertoire: Repertoire,
    search: Search,
}

impl Default for Coder {
    fn default() -> Self {
        Coder::keeping(KEPT)
    }
}

impl Coder {
    /// A search that keeps states up to so many bytes over the cheapest.
    pub fn keeping(over: u32) -> Coder {
        Coder { repertoire: Repertoire::default(), search: Search::new(over) }
    }

    /// The coding of the call's text, or the refusal by question 4, 5 or 6. Questions 1 to 3
    /// have let the call through.
    pub fn code(&mut self, call: &Call) -> Result<Coding, Refusal> {
        let choices = self.choices(call)?;
        Ok(self.search.code(State::start(call.initial == 1), &choices))
    }

    /// The candidates of each character, marks before their base, or that refusal.
    pub fn choices(&mut self, call: &Call) -> Result<Vec<Vec<Candidate>>, Refusal> {
        self.repertoire.lend(call.cells);
        let annex_e = call.width == 1;
        let candidates = |&(place, c): &(usize, char)| {
            let candidates = self.repertoire.candidates(c, annex_e);
            if candidates.is_empty() { Err(refusal(6, place)) } else { Ok(candidates) }
        };
        order::order(call.input)?.iter().map(candidates).collect()
    }
}
