//! The file of coding's vectors, read from its beginning to its end as a replay reads it.

mod rest;
mod vector_case;

use compare::call::CodingRooms;
use compare::coding::Coding;
use compare::encode::Buffers;
use compare::encode::vectors::{self, LONGEST, MOST};
use compare::subject;
use rest::Rest;
use vector_case::Case;

/// What the cases hold, by refusal number, and how many have a gap.
#[test]
fn each_vector_is_answered() {
    let file = vectors::file(1_100);
    assert!(file.len() < 300_000);
    let (_, subject) = subject::named(None).unwrap();
    let mut buffers = Buffers::default();
    let mut rest = Rest(&file);
    let (mut numbers, mut gaps) = ([0; 9], 0);
    for case in 0..rest.number() {
        let Case { call, rooms: [store, coding], refusal, counts: [length, gap] } = rest.case();
        let rooms = CodingRooms { store, coding };
        assert!(call.input.len() <= LONGEST);
        assert!(rooms.store <= MOST.store && rooms.coding <= MOST.coding);
        let bytes = rest.bytes(length).to_vec();
        let coding = Coding { bytes, gap: gap as usize, ..Coding::default() };
        let answer = if refusal.number == 0 { Ok(&coding) } else { Err(refusal) };
        let given = subject.encode(call, buffers.lend(rooms));
        assert_eq!(buffers.fault(given, answer), None, "case {case}");
        numbers[refusal.number as usize] += 1;
        gaps += u32::from(gap > 0);
    }
    assert!(rest.0.is_empty());
    assert_eq!(numbers[1], 0, "no case has another table");
    assert_eq!(numbers[3], 0, "no case is so long");
    assert!(numbers[0] > 400 && gaps > 40, "{numbers:?}, {gaps}");
    assert!([2, 4, 5, 6, 7, 8].into_iter().all(|number| numbers[number] > 10), "{numbers:?}");
}
