//! The two options of a call.

use isdb_text::{DecodeOptions, EncodeOptions, InitialState, WidthMode};

/// Initial state and width mapping.
#[derive(Debug, Clone, Copy, PartialEq, Eq)]
pub struct Options {
    pub initial: InitialState,
    pub width: WidthMode,
}

impl Options {
    /// 01's numbers: 0 Si, 1 Caption; 0 CharacterSize, 1 AnnexE.
    pub fn from_numbers(initial: u32, width: u32) -> Option<Options> {
        let initial = match initial {
            0 => InitialState::Si,
            1 => InitialState::Caption,
            _ => return None,
        };
        let width = match width {
            0 => WidthMode::CharacterSize,
            1 => WidthMode::AnnexE,
            _ => return None,
        };
        Some(Options { initial, width })
    }
}

impl From<Options> for DecodeOptions {
    fn from(o: Options) -> Self {
        DecodeOptions { initial: o.initial, width: o.width }
    }
}

impl From<Options> for EncodeOptions {
    fn from(o: Options) -> Self {
        EncodeOptions { initial: o.initial, width: o.width }
    }
}
