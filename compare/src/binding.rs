//! `compare crate`: the crate in rust/, which has isdb-text's names, held against isdb-text.

mod hold;
mod inputs;
mod tally;
mod texts;
mod types;

use ours::{
    AribString, Coded, DecodeOptions, Decoded, EncodeError, EncodeOptions, Measured, Reason,
    Refused, clean_with, code_with, decode_with, encode_with, key_with, measure_with,
    try_decode_with,
};

use crate::runs::{self, Part};

pub use hold::Holder;
pub use tally::Tally;
pub use types::decode_options;

/// How the runs are done.
pub type Runs = runs::Runs<Holder, Amount>;

/// What a part has counted, or the difference that it found.
type Found = runs::Found<Holder>;

/// How many random inputs, and how many random texts.
pub struct Amount {
    pub inputs: u64,
    pub texts: u64,
}

/// About a minute's.
pub const USUAL: Amount = Amount { inputs: 100_000, texts: 20_000 };

/// The parts in the order in which they are done.
const PARTS: [Part<Holder, Amount>; 9] = [
    ("corners", inputs::corners),
    ("0 to 2 bytes", inputs::to_two),
    ("random inputs", inputs::random),
    ("long inputs", inputs::long),
    ("corners of coding", texts::corners),
    ("repertoire", texts::repertoire),
    ("sequences of samples", texts::sequences),
    ("random texts", texts::random),
    ("too long", texts::too_long),
];

/// The crate's functions.
#[derive(Clone, Copy)]
pub struct Calls {
    pub decode: fn(&[u8], &DecodeOptions) -> Decoded,
    pub try_decode: fn(&[u8], &DecodeOptions) -> Result<Decoded, Refused>,
    pub key: fn(&[u8], &DecodeOptions) -> Result<String, Refused>,
    pub clean: fn(&[u8], &DecodeOptions) -> Result<bool, Refused>,
    pub measure: fn(&[u8], &DecodeOptions) -> Result<Measured, Refused>,
    pub encode: fn(&str, &EncodeOptions) -> Result<AribString, EncodeError>,
    pub code: fn(&str, &EncodeOptions) -> Result<Coded, EncodeError>,
    pub reason: fn(&Refused) -> Option<Reason>,
}

/// As they are.
pub const CALLS: Calls = Calls {
    decode: decode_with,
    try_decode: try_decode_with,
    key: key_with,
    clean: clean_with,
    measure: measure_with,
    encode: encode_with,
    code: code_with,
    reason: Refused::reason,
};

/// Does all parts and prints what each counted; false at a difference.
pub fn all(runs: &Runs) -> bool {
    let Amount { inputs, texts } = runs.amount;
    println!("{runs}, {inputs} random inputs, {texts} random texts");
    runs.all(&PARTS)
}
