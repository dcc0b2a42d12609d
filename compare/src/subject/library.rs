//! target/staticlib/libtext.a, through the calls of the crate in rust/, which links it.

use ours::ffi;

use super::{CatalogueLent, CodingLent, Lent, Subject};
use crate::call::Call;

pub struct Library;

impl Subject for Library {
    fn decode(&self, call: Call, lent: Lent) -> u32 {
        ffi::decode(given(call), lent.text, lent.issues, lent.counts)
    }

    fn unknown_escape(&self, input: &[u8], start: usize, length: usize) -> (usize, [usize; 2]) {
        let mut part = [usize::MAX; 2];
        (ffi::unknown_escape(input, start, length, &mut part), part)
    }

    fn encode(&self, call: Call, lent: CodingLent) -> u32 {
        ffi::encode(given(call), lent.store, lent.coding, lent.counts)
    }

    fn key(&self, call: Call, key: &mut [u8], counts: &mut [usize]) -> u32 {
        ffi::key(given(call), key, counts)
    }

    fn clean(&self, call: Call, counts: &mut [usize]) -> u32 {
        ffi::clean(given(call), counts)
    }

    fn measure(&self, call: Call, counts: &mut [usize]) -> u32 {
        ffi::measure(given(call), counts)
    }

    fn add(&self, call: Call, number: u32, lent: CatalogueLent) -> u32 {
        ffi::catalogue_add(given(call), number, lent.store, lent.key, lent.counts)
    }

    fn remove(&self, store: &mut [u8], number: u32) -> u32 {
        ffi::catalogue_remove(store, number)
    }

    fn find(&self, store: &[u8], key: &[u8], counts: &mut [usize]) -> u32 {
        ffi::catalogue_find(store, key, counts)
    }

    fn set(
        &self,
        call: Call,
        place: usize,
        name: u32,
        store: &mut [u32],
        counts: &mut [usize],
    ) -> u32 {
        ffi::bookmark_set(given(call), place, name, store, counts)
    }

    fn go_on(&self, call: Call, name: u32, store: &[u32], lent: Lent) -> u32 {
        ffi::bookmark_return(given(call), name, store, lent.text, lent.issues, lent.counts)
    }
}

fn given(Call { cells, initial, width, input }: Call) -> ffi::Call {
    ffi::Call { cells, initial, width, input }
}
