//! A subject with a fault.

use compare::call::Call;
use compare::subject::{CatalogueLent, CodingLent, Lent, Subject, model};

/// The model, and then a fault in what it left. It has no part of any input.
pub struct Faulty {
    /// What it takes an input for.
    pub takes: fn(&[u8]) -> Vec<u8>,
    /// Of decoding, and of keys, which have no issues.
    pub reading: fn(&mut Lent, &mut u32),
    pub coding: fn(&mut CodingLent, &mut u32),
    /// The whole of `arib_key`, of `arib_clean`, and of `arib_measure`.
    pub key: Keyed,
    pub clean: Asked,
    pub measure: Asked,
    /// The whole of the catalogue's calls.
    pub add: Adding,
    pub remove: Removing,
    pub find: Finding,
    /// The whole of the calls of bookmarks.
    pub set: Setting,
    pub go_on: Returning,
}

/// A call that is lent a buffer for a key, and counts.
pub type Keyed = fn(Call, &mut [u8], &mut [usize]) -> u32;

/// A call that is lent counts and nothing else.
pub type Asked = fn(Call, &mut [usize]) -> u32;

/// Calls of the catalogue.
pub type Adding = fn(Call, u32, CatalogueLent) -> u32;
pub type Removing = fn(&mut [u8], u32) -> u32;
pub type Finding = fn(&[u8], &[u8], &mut [usize]) -> u32;

/// Calls of bookmarks.
pub type Setting = fn(Call, usize, u32, &mut [u32], &mut [usize]) -> u32;
pub type Returning = fn(Call, u32, &[u32], Lent) -> u32;

/// The model but for the parts.
pub const SOUND: Faulty = Faulty {
    takes: <[u8]>::to_vec,
    reading: |_, _| {},
    coding: |_, _| {},
    key: |call, key, counts| model().key(call, key, counts),
    clean: |call, counts| model().clean(call, counts),
    measure: |call, counts| model().measure(call, counts),
    add: |call, number, lent| model().add(call, number, lent),
    remove: |store, number| model().remove(store, number),
    find: |store, key, counts| model().find(store, key, counts),
    set: |call, place, name, store, counts| model().set(call, place, name, store, counts),
    go_on: |call, name, store, lent| model().go_on(call, name, store, lent),
};

impl Subject for Faulty {
    fn decode(&self, call: Call, mut lent: Lent) -> u32 {
        let Lent { text, issues, counts } = &mut lent;
        let input = &(self.takes)(call.input);
        let mut refusal = model().decode(Call { input, ..call }, Lent { text, issues, counts });
        (self.reading)(&mut lent, &mut refusal);
        refusal
    }

    fn unknown_escape(&self, _: &[u8], _: usize, _: usize) -> (usize, [usize; 2]) {
        (0, [0, 0])
    }

    fn encode(&self, call: Call, mut lent: CodingLent) -> u32 {
        let CodingLent { store, coding, counts } = &mut lent;
        let mut refusal = model().encode(call, CodingLent { store, coding, counts });
        (self.coding)(&mut lent, &mut refusal);
        refusal
    }

    fn key(&self, call: Call, key: &mut [u8], counts: &mut [usize]) -> u32 {
        let input = &(self.takes)(call.input);
        let mut refusal = (self.key)(Call { input, ..call }, key, counts);
        (self.reading)(&mut Lent { text: key, issues: &mut [], counts }, &mut refusal);
        refusal
    }

    fn clean(&self, call: Call, counts: &mut [usize]) -> u32 {
        (self.clean)(Call { input: &(self.takes)(call.input), ..call }, counts)
    }

    fn measure(&self, call: Call, counts: &mut [usize]) -> u32 {
        (self.measure)(Call { input: &(self.takes)(call.input), ..call }, counts)
    }

    fn add(&self, call: Call, number: u32, lent: CatalogueLent) -> u32 {
        (self.add)(Call { input: &(self.takes)(call.input), ..call }, number, lent)
    }

    fn remove(&self, store: &mut [u8], number: u32) -> u32 {
        (self.remove)(store, number)
    }

    fn find(&self, store: &[u8], key: &[u8], counts: &mut [usize]) -> u32 {
        (self.find)(store, key, counts)
    }

    fn set(
        &self,
        call: Call,
        place: usize,
        name: u32,
        store: &mut [u32],
        counts: &mut [usize],
    ) -> u32 {
        (self.set)(call, place, name, store, counts)
    }

    fn go_on(&self, call: Call, name: u32, store: &[u32], lent: Lent) -> u32 {
        (self.go_on)(call, name, store, lent)
    }
}
