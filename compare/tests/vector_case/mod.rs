//! A case of decoding or coding in a file of vectors.

use compare::call::Call;
use compare::cells;
use oracle::coding::Refusal;

use crate::rest::Rest;

/// The beginning of a case: the call, its two rooms, its refusal, 0 for none, and its counts.
pub struct Case<'a, const N: usize> {
    pub call: Call<'a>,
    pub rooms: [usize; 2],
    pub refusal: Refusal,
    pub counts: [u32; N],
}

impl<'a> Rest<'a> {
    pub fn case<const N: usize>(&mut self) -> Case<'a, N> {
        let [table, initial, width, length, first, second, number, place] = self.numbers();
        let counts = self.numbers();
        let cells = [cells::rusts(), cells::zeros()][table as usize];
        let call = Call { cells, initial, width, input: self.bytes(length) };
        let rooms = [first, second].map(|n| n as usize);
        Case { call, rooms, refusal: Refusal { number, place }, counts }
    }
}
