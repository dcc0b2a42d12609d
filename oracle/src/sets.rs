//! Set numbers of 01.

use isdb_text::GraphicSet;

/// The sets numbered 0 to 15.
const NAMED: [GraphicSet; 16] = [
    GraphicSet::Kanji,
    GraphicSet::Alphanumeric,
    GraphicSet::Hiragana,
    GraphicSet::Katakana,
    GraphicSet::MosaicA,
    GraphicSet::MosaicB,
    GraphicSet::MosaicC,
    GraphicSet::MosaicD,
    GraphicSet::ProportionalAlphanumeric,
    GraphicSet::ProportionalHiragana,
    GraphicSet::ProportionalKatakana,
    GraphicSet::JisX0201Katakana,
    GraphicSet::JisKanjiPlane1,
    GraphicSet::JisKanjiPlane2,
    GraphicSet::AdditionalSymbols,
    GraphicSet::Macro,
];

/// The 32 sets in the order of their numbers.
pub fn all() -> impl Iterator<Item = GraphicSet> {
    NAMED.into_iter().chain((0..16).map(GraphicSet::Drcs))
}

/// The number of a set: Drcs(n) is 16 + n.
pub fn number(set: GraphicSet) -> u32 {
    match set {
        GraphicSet::Drcs(n) => 16 + u32::from(n),
        _ => NAMED.iter().take_while(|&&named| named != set).count() as u32,
    }
}
