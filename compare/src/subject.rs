//! What is under test: the static library of crates/text_c, or the model in its place.

mod standin;

#[cfg(feature = "library")]
mod library;

use crate::call::Call;

/// The buffers lent to a call. The first five counts are place, text bytes, issues, charge and
/// private-use characters.
pub struct Lent<'a> {
    pub text: &'a mut [u8],
    pub issues: &'a mut [u32],
    pub counts: &'a mut [usize],
}

/// What is lent to a call of coding. The counts are place, length and gap.
pub struct CodingLent<'a> {
    pub store: &'a mut [u32],
    pub coding: &'a mut [u8],
    pub counts: &'a mut [usize; 3],
}

/// What is lent to a call that adds to a catalogue. The first three counts are place, bytes of the
/// key and charge.
pub struct CatalogueLent<'a> {
    pub store: &'a mut [u8],
    pub key: &'a mut [u8],
    pub counts: &'a mut [usize],
}

/// The functions of the static library.
pub trait Subject: Sync {
    /// `arib_decode`: the refusal's number, or 0.
    fn decode(&self, call: Call, lent: Lent) -> u32;

    /// `arib_unknown_escape`: the length, and the part's offset and length.
    fn unknown_escape(&self, input: &[u8], start: usize, length: usize) -> (usize, [usize; 2]);

    /// `arib_encode`: the refusal's number, or 0.
    fn encode(&self, call: Call, lent: CodingLent) -> u32;

    /// `arib_key`: the refusal's number, or 0. The first three counts are place, length and
    /// charge.
    fn key(&self, call: Call, key: &mut [u8], counts: &mut [usize]) -> u32;

    /// `arib_clean`: the refusal's number, or 0. The first two counts are the place, and 1 for a
    /// reading without issue or 0.
    fn clean(&self, call: Call, counts: &mut [usize]) -> u32;

    /// `arib_measure`: the refusal's number, or 0. The first four counts are the first four of
    /// `arib_decode` in buffers that are large enough.
    fn measure(&self, call: Call, counts: &mut [usize]) -> u32;

    /// `arib_catalogue_add`: the refusal's number, or 0. The input is the title.
    fn add(&self, call: Call, number: u32, lent: CatalogueLent) -> u32;

    /// `arib_catalogue_remove`: the refusal's number, or 0.
    fn remove(&self, store: &mut [u8], number: u32) -> u32;

    /// `arib_catalogue_find`: the refusal's number, or 0. The first three counts are the place, how
    /// many entries have the key, and the smallest of their numbers.
    fn find(&self, store: &[u8], key: &[u8], counts: &mut [usize]) -> u32;

    /// `arib_bookmark_set`: the refusal's number, or 0. The first count is the place.
    fn set(
        &self,
        call: Call,
        place: usize,
        name: u32,
        store: &mut [u32],
        counts: &mut [usize],
    ) -> u32;

    /// `arib_bookmark_return`: the refusal's number, or 0. The first five counts are those of
    /// `arib_decode`, of the rest, with the charge of the whole.
    fn go_on(&self, call: Call, name: u32, store: &[u32], lent: Lent) -> u32;
}

/// The model, which is always there.
pub fn model() -> &'static dyn Subject {
    &standin::StandIn
}

/// The subject of that name, `library` or `model`; with none, the library where it is linked.
pub fn named(name: Option<&str>) -> Option<(&'static str, &'static dyn Subject)> {
    match name {
        #[cfg(feature = "library")]
        None | Some("library") => Some(("library", &library::Library)),
        #[cfg(not(feature = "library"))]
        None => Some(("model", model())),
        Some("model") => Some(("model", model())),
        _ => None,
    }
}
