//! The JIS X 0208 cell table that calls are lent.

use isdb_text::tables::jis_x0208;

/// Rows 1 to 94, in each the cells 1 to 94.
pub fn all() -> impl Iterator<Item = (u8, u8)> {
    (1..=94).flat_map(|row| (1..=94).map(move |cell| (row, cell)))
}

/// The table: each cell a big-endian 16-bit number, 0 if it is empty.
pub fn table() -> Vec<u8> {
    all().flat_map(|(row, cell)| number(row, cell).to_be_bytes()).collect()
}

/// The cell's character. JIS X 0208 lies within 16 bits.
fn number(row: u8, cell: u8) -> u16 {
    jis_x0208(row, cell).map_or(0, |c| c as u16)
}
