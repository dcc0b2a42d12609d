//! The sides of the cases of bookmarks.

use super::side::Runner;
use super::{Ready, Work};
use crate::bookmark::STORE;
use crate::call::Call;
use crate::subject::{Lent, Subject};

/// Sets each bookmark.
pub fn set<'a>(subject: &'a dyn Subject, case: &'a Ready) -> Runner<'a> {
    let (call, middles, mut store) = (case.call, case.middles(), vec![0; STORE]);
    Box::new(move || {
        for &(input, place) in &middles {
            let call = Call { input, ..call };
            assert_eq!(subject.set(call, place, 0, &mut store, &mut [0]), 0);
        }
    })
}

/// Returns to each bookmark; each input has a store and a buffer of its own.
pub fn go_on<'a>(subject: &'a dyn Subject, case: &'a Ready) -> Runner<'a> {
    let lent = |(input, place): (&'a [u8], usize)| {
        let (call, mut store) = (Call { input, ..case.call }, vec![0; STORE]);
        assert_eq!(subject.set(call, place, 0, &mut store, &mut [0]), 0);
        (call, store, room(subject, Call { input: &input[place..], ..call }))
    };
    let mut lent: Vec<_> = case.middles().into_iter().map(lent).collect();
    Box::new(move || {
        for (call, store, text) in &mut lent {
            let lent = Lent { text, issues: &mut [], counts: &mut [0; 5] };
            assert_eq!(subject.go_on(*call, 0, store, lent), 0);
        }
    })
}

/// Measures what is before each bookmark, or decodes what is behind it.
pub fn half<'a>(subject: &'a dyn Subject, case: &'a Ready) -> Runner<'a> {
    let part = |(input, place): (&'a [u8], usize)| {
        let (before, behind) = input.split_at(place);
        let before = Call { input: before, ..case.call };
        let behind = Call { input: behind, ..case.call };
        (before, behind, room(subject, behind))
    };
    let mut parts: Vec<_> = case.middles().into_iter().map(part).collect();
    Box::new(move || {
        for (before, behind, text) in &mut parts {
            if case.work == Work::Set {
                assert_eq!(subject.measure(*before, &mut [0; 4]), 0);
            } else {
                let lent = Lent { text, issues: &mut [], counts: &mut [0; 5] };
                assert_eq!(subject.decode(*behind, lent), 0);
            }
        }
    })
}

/// A buffer that just suffices for the text.
fn room(subject: &dyn Subject, call: Call) -> Vec<u8> {
    let mut counts = [0; 4];
    assert_eq!(subject.measure(call, &mut counts), 0);
    vec![0; counts[1]]
}
