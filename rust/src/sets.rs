//! Graphic sets and initial states (STD-B24 volume 1 part 2, Tables 7-3 and part 3, 8-2).

/// Defines the sets in the order of 01's numbers, but for DRCS, which have the last ones.
macro_rules! sets {
    ($($name:ident)*; $last:ident) => {
        /// A graphic set.
        #[derive(Debug, Clone, Copy, PartialEq, Eq, Hash)]
        pub enum GraphicSet {
            $($name,)*
            /// DRCS-n.
            Drcs(u8),
            $last,
        }

        const PLAIN: [GraphicSet; 16] = [$(GraphicSet::$name,)* GraphicSet::$last];
    };
}

sets! {
    Kanji Alphanumeric Hiragana Katakana MosaicA MosaicB MosaicC MosaicD
    ProportionalAlphanumeric ProportionalHiragana ProportionalKatakana JisX0201Katakana
    JisKanjiPlane1 JisKanjiPlane2 AdditionalSymbols; Macro
}

impl GraphicSet {
    /// The set of 01's number.
    pub(crate) fn from_number(n: u32) -> Self {
        match PLAIN.get(n as usize) {
            Some(&set) => set,
            None => GraphicSet::Drcs((n - 16) as u8),
        }
    }
}

/// The state before the first byte: of SI, or of captions, where G3 is the macro set.
#[derive(Debug, Clone, Copy, PartialEq, Eq, Hash, Default)]
pub enum InitialState {
    #[default]
    Si,
    Caption,
}

impl InitialState {
    pub(crate) fn number(self) -> u32 {
        match self {
            InitialState::Si => 0,
            InitialState::Caption => 1,
        }
    }
}
