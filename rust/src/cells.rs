//! The cell table of JIS X 0208 that ships with the crate: the repository's `jis.tab`.

use crate::decode::WidthMode;
use crate::ffi::Call;
use crate::sets::InitialState;

const COUNT: usize = 8836;

/// Big-endian, row by row.
const BYTES: &[u8; 2 * COUNT] = include_bytes!("../../jis.tab");

/// 94 rows of 94 cells, 0 for an empty one. It passes question 1, as a test below asks.
static CELLS: [u16; COUNT] = numbers();

/// A call with the table.
pub fn call(initial: InitialState, width: WidthMode, input: &[u8]) -> Call<'_> {
    Call {
        cells: &CELLS,
        initial: initial.number(),
        width: width.number(),
        input,
    }
}

const fn numbers() -> [u16; COUNT] {
    let mut cells = [0; COUNT];
    let mut i = 0;
    while i < COUNT {
        cells[i] = u16::from_be_bytes([BYTES[2 * i], BYTES[2 * i + 1]]);
        i += 1;
    }
    cells
}

#[cfg(test)]
mod tests {
    use super::call;
    use crate::ffi;

    #[test]
    fn the_table_passes_question_1() {
        let call = call(Default::default(), Default::default(), b"");
        let refused = ffi::encode(call, &mut [0; 4], &mut [], &mut []);
        assert_eq!(refused, 0);
    }
}
