//! Corners of reading, and the eight lines of 01's table of twelve that decode.

use oracle::hex;

/// Initial state, width, and the bytes in hexadecimal.
type Corner = (u32, u32, &'static str);

/// 01's table; it is read with a cell table of zeros.
const TABLE: &[Corner] = &[
    (0, 0, "0E41"),
    (0, 0, "890E41"),
    (0, 0, "24A2"),
    (0, 0, "9843A2"),
    (0, 0, "9840A2"),
    (0, 0, "212DA2"),
    (1, 0, "1D610E22"),
    (1, 0, "9541211D21954F"),
];

const CORNERS: &[Corner] = &[
    // Truncated: a character or single shift uses one byte, a control or escape the rest.
    (0, 0, ""),
    (0, 0, "1CA2"),
    (0, 0, "98"),
    (0, 0, "8B"),
    (0, 0, "16"),
    (0, 0, "1B24"),
    (0, 0, "9020"),
    (0, 0, "9D29"),
    (0, 0, "9B30"),
    (0, 0, "954021"),
    // Single shifts, in either half.
    (0, 0, "1B242A421924"),
    (0, 0, "1B242A4219A4A2"),
    (0, 0, "1B242A42192422"),
    (0, 0, "190D"),
    (0, 0, "19A0"),
    (0, 0, "1919A2"),
    (0, 0, "19"),
    // A waiting repeat.
    (0, 0, "98430DA2"),
    (0, 0, "9843212DA2"),
    (0, 0, "212D9843A2"),
    (0, 0, "984324A2"),
    (0, 0, "98439842A2"),
    (0, 0, "98439840A2"),
    (0, 0, "9843"),
    (0, 0, "987FA2"),
    // Marks.
    (0, 0, "212D"),
    (0, 0, "212D212E227EA2"),
    (0, 0, "212D1B283221A2"),
    (0, 0, "212D240D"),
    // Issues behind text: before a placeholder and its repeats, before marks that are released, while
    // marks wait, in a body.
    (0, 0, "A298437A4DA2"),
    (0, 0, "A2212D0D7A4D"),
    (0, 0, "A2212D"),
    (0, 0, "A2212D9840A2"),
    (1, 0, "A2954121A2A0A2954F1D21"),
    // Sizes and the width option.
    (0, 0, "8B600E41"),
    (0, 0, "8BE00E41"),
    (0, 1, "8A0E5C"),
    (0, 0, "208920882020"),
    // TIME, CSI, COL.
    (0, 0, "9D29A2"),
    (0, 0, "9D2930A2"),
    (0, 0, "9BA2"),
    (0, 0, "9D1BA2"),
    (0, 0, "902040A2"),
    (0, 0, "9048A2"),
    // Escapes.
    (0, 0, "1BA2"),
    (0, 0, "1B7FA2"),
    (0, 0, "1B1B7DA2"),
    (0, 0, "1B242842"),
    (0, 0, "1B282040"),
    (0, 0, "1B242820402121"),
    // Macros.
    (1, 0, "9540954F"),
    (1, 0, "9541A1A2954F1D21"),
    (1, 0, "954061954F1D610E22"),
    (1, 0, "9540211B2441954F1D21"),
    (1, 0, "95402124954F1D2122"),
    (1, 0, "954120A2954F"),
    (1, 0, "954022954F9541211D211D22954F"),
    (1, 0, "9541211D23954F"),
    (1, 0, "95401B2B2070954F1D1B"),
    (1, 0, "9542"),
    (1, 0, "954F"),
    // Private-use characters, 92-26 and 92-87, and what stands beside them; repeated; with a mark,
    // with both; before a mark that waits in vain; behind placeholders, which are none.
    (0, 0, "7C3A"),
    (0, 0, "7C397C3A7C777C78"),
    (0, 0, "98437C3A"),
    (0, 0, "212D7C3A"),
    (0, 0, "212D98437C3AA2"),
    (0, 0, "7C3A212D"),
    (0, 0, "984329217C3A"),
    // In a body that is called twice, and in one that is called behind a repeat; with issues, so
    // that question 10 comes before question 11.
    (1, 0, "9540217C3A954F1D211D21"),
    (1, 0, "9540217C3A954F98431D21A2"),
    (0, 0, "7C3A24A2"),
    (1, 0, "9541217C3AA0954F7C3A"),
    // In GR, by a single shift, as an additional symbol, in plane 1, which has none.
    (0, 0, "1B242A42FCBAA2"),
    (0, 0, "1B242A42197C3A19FCBA"),
    (0, 0, "1B243B7C3A7C58"),
    (0, 0, "1B24397C3A"),
    // Cells.
    (0, 0, "2921"),
    (0, 0, "1B242A39A9A1"),
    (0, 0, "1B2439212D213D"),
    (0, 0, "1B24293B0E7D3E"),
    (0, 0, "7A4D7A4C7A627A747A75"),
];

/// The lines of 01's table.
pub fn table() -> impl Iterator<Item = (u32, u32, Vec<u8>)> {
    TABLE.iter().map(bytes)
}

/// The corners.
pub fn corners() -> impl Iterator<Item = (u32, u32, Vec<u8>)> {
    CORNERS.iter().map(bytes)
}

fn bytes(&(initial, width, digits): &Corner) -> (u32, u32, Vec<u8>) {
    let mut bytes = Vec::new();
    hex::parse(&mut bytes, digits).expect("pairs of digits");
    (initial, width, bytes)
}
