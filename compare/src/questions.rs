//! Calls that questions 1 and 2 refuse, of decoding and of coding.

use crate::call::{CELLS, Call};
use crate::cells;
use crate::difference::Held;

/// One wrong cell, of this index, in a table that is else served.
pub fn wrong_cells(input: &[u8], mut refused: impl FnMut(Call, usize) -> Held) -> Held {
    let mut cells = cells::rusts().to_vec();
    for (index, number) in cells::in_empty_rows().chain(cells::surrogates()) {
        let kept = std::mem::replace(&mut cells[index], number);
        refused(Call { cells: &cells, initial: 0, width: 0, input }, index)?;
        cells[index] = kept;
    }
    Ok(())
}

/// Tables of another length, with these initial states and inputs.
pub fn wrong_lengths(given: &[(u32, &[u8])], mut refused: impl FnMut(Call) -> Held) -> Held {
    let cells = [0; 2 * CELLS];
    for length in [0, 1, 94, CELLS - 94, CELLS - 1, CELLS + 1, 2 * CELLS] {
        for &(initial, input) in given {
            refused(Call { cells: &cells[..length], initial, width: 0, input })?;
        }
    }
    Ok(())
}

/// Options that are neither 0 nor 1, with these inputs.
pub fn wrong_options(inputs: &[&[u8]], mut refused: impl FnMut(Call) -> Held) -> Held {
    let wrong = [2, 3, 255, 256, 257, 1 << 16, 1 << 31, (1 << 31) + 1, u32::MAX];
    let pairs = wrong.into_iter().flat_map(|n| [(n, 0), (0, n), (n, 1), (1, n), (n, n)]);
    for (initial, width) in pairs {
        for input in inputs {
            refused(Call { cells: cells::rusts(), initial, width, input })?;
        }
    }
    Ok(())
}

/// Some of those options.
pub fn some_wrong_options() -> impl Iterator<Item = (u32, u32)> {
    let wrong = [2, 3, 256, 257, 1 << 31, u32::MAX];
    wrong.into_iter().flat_map(|n| [(n, 0), (1, n), (n, n)])
}
