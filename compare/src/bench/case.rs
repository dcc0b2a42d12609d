//! What a case of the benchmark is.

use super::{Stock, middle};
use crate::call::{Call, CodingRooms, Rooms};
use crate::cells;
use crate::coding::{Coder, Coding};
use crate::entries::{LONGEST, MOST};

/// What is done with an input.
#[derive(Clone, Copy, PartialEq, Eq)]
pub enum Work {
    Decode(Rooms),
    /// With room for so many bytes of the text before removal.
    Key(usize),
    /// Whether there is an issue. It is lent nothing.
    Clean,
    /// What decoding takes. It is lent nothing.
    Measure,
    /// In one store and one buffer that serve all texts of the case.
    Code,
    /// Decoding by the crate in rust/, which allocates what it answers, as the Rust does.
    Crate,
    /// A key sought in a catalogue.
    Find(Stock),
    /// A title added to a catalogue with the number 0, before all others, and removed again.
    AddRemove(Stock),
    /// A bookmark set in the middle.
    Set,
    /// A return to one there, in buffers that just suffice.
    Return,
}

/// Room for the key of a title that is added: 255 full-width letters.
const ADDED: usize = 3 * LONGEST;

/// Inputs that are taken one after another, under CharacterSize, with the Rust's table.
pub struct Case {
    pub name: &'static str,
    pub work: Work,
    pub initial: u32,
    pub inputs: fn() -> Vec<Vec<u8>>,
    /// How often the case is run to count its instructions; 0 if the Rust is too slow for that.
    pub passes: u32,
}

/// A case with its inputs, and the call that each of them goes into.
pub struct Ready {
    pub work: Work,
    pub call: Call<'static>,
    pub inputs: Vec<Vec<u8>>,
    /// The store's length, if it is not to be the greatest need of any text.
    pub store: Option<usize>,
}

impl Case {
    pub fn ready(&self) -> Ready {
        let call = Call { cells: cells::rusts(), initial: self.initial, width: 0, input: &[] };
        Ready { work: self.work, call, inputs: (self.inputs)(), store: None }
    }
}

impl Ready {
    /// The lengths of what is lent: text and issues, the key alone, nothing, or store and coding;
    /// of a catalogue the key and the entries that it holds.
    pub fn rooms(&self) -> [usize; 2] {
        match self.work {
            Work::Decode(Rooms { text, issues }) => [text, issues],
            Work::Key(text) => [text, 0],
            Work::Clean | Work::Measure | Work::Crate | Work::Set | Work::Return => [0, 0],
            Work::Find(stock) => [0, stock.entries(MOST).len()],
            Work::AddRemove(stock) => [ADDED, stock.entries(MOST - 1).len()],
            Work::Code => {
                let CodingRooms { store, coding } = self.greatest(CodingRooms::exact);
                [self.store.unwrap_or(store), coding]
            }
        }
    }

    /// Each input with the place of its bookmark.
    pub fn middles(&self) -> Vec<(&[u8], usize)> {
        let with = |input| (input, middle(Call { input, ..self.call }));
        self.inputs.iter().map(|input| with(input.as_slice())).collect()
    }

    /// The numbers of the store that a case of coding needs, and four for each state.
    pub fn stores(&self) -> [usize; 2] {
        [CodingRooms::exact, CodingRooms::older].map(|rooms| self.greatest(rooms).store)
    }

    /// The greatest rooms of any text.
    fn greatest(&self, rooms: fn(&Coding) -> CodingRooms) -> CodingRooms {
        let mut model = Coder::default();
        let codings = self.inputs.iter().map(|input| model.code(&Call { input, ..self.call }));
        let all = codings.map(|coding| rooms(&coding.expect("no refusal")));
        all.fold(CodingRooms::default(), |most, rooms| CodingRooms {
            store: most.store.max(rooms.store),
            coding: most.coding.max(rooms.coding),
        })
    }
}
