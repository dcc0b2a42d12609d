//! Files with a fixed list of calls and their answers, for a replay without the Rust.
//!
//! Numbers are four bytes, big-endian. First the number of cases, then the cases, each of them
//! some numbers (README.md names them), the input, and what it is answered.

use oracle::coding::Refusal;

use crate::call::Call;
use crate::cells;

/// One call, with its rooms.
#[derive(Clone)]
pub struct Case<R> {
    /// The cell table: zeros, or the Rust's (jis.tab).
    pub zeros: bool,
    pub initial: u32,
    pub width: u32,
    pub input: Vec<u8>,
    pub rooms: R,
}

impl<R> Case<R> {
    pub fn call(&self) -> Call<'_> {
        let Case { zeros, initial, width, ref input, .. } = *self;
        Call { cells: if zeros { cells::zeros() } else { cells::rusts() }, initial, width, input }
    }

    /// The case's numbers, then the input.
    pub fn put(&self, out: &mut Vec<u8>, rooms: [usize; 2], refusal: Refusal, counts: &[usize]) {
        let [first, second] = rooms.map(|n| n as u32);
        numbers(out, [self.zeros.into(), self.initial, self.width]);
        numbers(out, [self.input.len() as u32, first, second]);
        numbers(out, [refusal.number, refusal.place]);
        numbers(out, counts.iter().map(|&n| n as u32));
        out.extend_from_slice(&self.input);
    }
}

/// The file with the first `count` cases of the list, each as `put` writes it.
pub fn file<R>(
    count: usize,
    cases: impl Iterator<Item = Case<R>>,
    mut put: impl FnMut(&mut Vec<u8>, &Case<R>),
) -> Vec<u8> {
    let mut out = (count as u32).to_be_bytes().to_vec();
    cases.take(count).for_each(|case| put(&mut out, &case));
    out
}

pub fn numbers(out: &mut Vec<u8>, numbers: impl IntoIterator<Item = u32>) {
    out.extend(numbers.into_iter().flat_map(u32::to_be_bytes));
}
