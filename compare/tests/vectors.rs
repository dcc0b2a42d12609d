//! The file of vectors, read from its beginning to its end as a replay reads it.

mod rest;
mod vector_case;

use compare::call::Rooms;
use compare::decode::vectors::{self, MOST};
use compare::decode::{Buffers, DECODED};
use compare::model::Reading;
use compare::subject;
use rest::Rest;
use vector_case::Case;

/// What the cases hold, by refusal number, and how many have private-use characters.
#[test]
fn each_vector_is_answered() {
    let file = vectors::file(2_200);
    assert!(file.len() < 400_000);
    let (_, subject) = subject::named(None).unwrap();
    let mut buffers = Buffers::default();
    let mut rest = Rest(&file);
    let (mut numbers, mut private) = ([0; 10], 0);
    for case in 0..rest.number() {
        let Case { call, rooms: [text, issues], refusal, counts } = rest.case();
        let rooms = Rooms { text, issues };
        assert!(call.input.len() <= 4_096);
        assert!(rooms.text <= MOST.text && rooms.issues <= MOST.issues);
        assert_eq!(refusal.place, 0);
        let [text, issues, charge, private_use] = counts;
        let text = rest.bytes(text).to_vec();
        let issues = (0..issues).map(|_| rest.numbers()).collect();
        let reading = Reading { text, issues, charge: charge as usize };
        assert_eq!(reading.private_use(), private_use as usize, "case {case}");
        let answer = if refusal.number == 0 { Ok(&reading) } else { Err(refusal) };
        let given = subject.decode(call, buffers.lend(rooms, DECODED));
        assert_eq!(buffers.fault(given, answer), None, "case {case}");
        numbers[refusal.number as usize] += 1;
        private += u32::from(private_use > 0);
    }
    assert!(rest.0.is_empty());
    assert!([0, 2, 8, 9].into_iter().all(|number| numbers[number] > 10), "{numbers:?}");
    assert!(private > 80, "{private}");
}
