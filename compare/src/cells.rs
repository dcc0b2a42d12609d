//! Cell tables to lend.

use std::sync::OnceLock;

use crate::call::CELLS;
use crate::model::tables::MARKS;
use crate::random::Random;

/// The rows that may hold characters, and those that must be empty.
const ROWS: [u8; 77] = rows(false);
const EMPTY_ROWS: [u8; 17] = rows(true);

/// Numbers at the limits of what a cell may hold.
const ODD: [u16; 20] = [
    0x000A, 0x000D, 0x0020, 0x3000, 0x0001, 0x007F, 0x0080, 0x07FF, 0x0800, 0xD7FF, 0xE000, 0xF8FF,
    0xFFFD, 0xFFFE, 0xFFFF, 0x0041, 0x3042, 0x3042, 0x3042, 0x2014,
];

/// The ends of the private-use characters, and what a cell may hold beside them.
const ENDS: [u16; 4] = [0xD7FF, 0xE000, 0xF8FF, 0xF900];

/// The Rust's table.
pub fn rusts() -> &'static [u16] {
    static TABLE: OnceLock<Vec<u16>> = OnceLock::new();
    let cell = |cell: &[u8]| u16::from_be_bytes([cell[0], cell[1]]);
    TABLE.get_or_init(|| oracle::cells::table().chunks_exact(2).map(cell).collect())
}

pub fn zeros() -> &'static [u16] {
    &[0; CELLS]
}

/// The table of this index among those that question 1 lets through: zeros, then odd ones.
pub fn other(random: &mut Random, index: u64) -> Vec<u16> {
    if index == 0 { zeros().to_vec() } else { odd(random) }
}

/// The Rust's, zeros or private-use characters, with odd cells.
fn odd(random: &mut Random) -> Vec<u16> {
    let mut cells = match random.below(3) {
        0 => rusts().to_vec(),
        1 => zeros().to_vec(),
        _ => private_use(random),
    };
    let changed = random.one_of(&[1, 30, 700, 7_000]);
    for _ in 0..changed {
        let index = index(random.one_of(&ROWS), random.byte(1, 94));
        cells[index] = number(random);
    }
    cells
}

/// A private-use character in each cell that may hold one.
fn private_use(random: &mut Random) -> Vec<u16> {
    let mut cells = zeros().to_vec();
    for row in ROWS {
        for cell in 1..=94 {
            cells[index(row, cell)] = random.range(0xE000, 0xF8FF) as u16;
        }
    }
    cells
}

/// A mark, an odd number, an end of the private-use characters or any number, no surrogate.
fn number(random: &mut Random) -> u16 {
    match random.below(5) {
        0 => u32::from(random.one_of(&MARKS).2) as u16,
        1 => random.range(0, 0xD7FF) as u16,
        2 => random.range(0xE000, 0xFFFF) as u16,
        3 => random.one_of(&ENDS),
        _ => random.one_of(&ODD),
    }
}

/// Each cell of the rows that must be empty, with a number in it.
pub fn in_empty_rows() -> impl Iterator<Item = (usize, u16)> {
    let cell =
        |row| (1..=94).map(move |cell| (index(row, cell), if cell % 2 == 0 { 1 } else { 0xFFFF }));
    EMPTY_ROWS.into_iter().flat_map(cell)
}

/// Each cell of the other rows, with a surrogate in it, the first and last ones included.
pub fn surrogates() -> impl Iterator<Item = (usize, u16)> {
    let number = |cell: u8| [0xD800, 0xDFFF, 0xDBFF, 0xDC00, 0xDABC][usize::from(cell) % 5];
    ROWS.into_iter().flat_map(move |row| (1..=94).map(move |cell| (index(row, cell), number(cell))))
}

/// Row by row; rows and cells count from 1.
pub fn index(row: u8, cell: u8) -> usize {
    (usize::from(row) - 1) * 94 + usize::from(cell) - 1
}

/// Rows 9 to 15 and 85 to 94, or the others.
const fn rows<const N: usize>(empty: bool) -> [u8; N] {
    let mut rows = [0; N];
    let (mut row, mut n) = (1, 0);
    while row <= 94 {
        if matches!(row, 9..=15 | 85..=94) == empty {
            rows[n] = row;
            n += 1;
        }
        row += 1;
    }
    assert!(n == N);
    rows
}
