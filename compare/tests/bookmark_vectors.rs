//! The file of the vectors of bookmarks, read from its beginning to its end as a replay reads it.

mod bookmark_faulty;
mod faulty;
mod rest;

use bookmark_faulty::faults;
use compare::bookmarks::vectors::{self, LONGEST, ROOMS, STORE};
use compare::call::Call;
use compare::cells;
use compare::lent::Buffer;
use compare::model::ISSUE;
use compare::subject::{self, Lent, Subject};
use rest::Rest;

/// The first case that the subject does not answer as the file says, if any, and why; else how many
/// cases of each kind there are, by refusal number.
fn replay(subject: &dyn Subject, file: &[u8]) -> Result<[[u32; 17]; 2], String> {
    let (mut rest, mut store) = (Rest(file), vec![]);
    let mut answers = [[0; 17]; 2];
    for case in 0..rest.number() {
        let [kind, table, initial, width, name, place] = rest.numbers();
        let [input, text_room, issue_room, length, loaded, before] = rest.numbers();
        let [answer, text, issues, charge, private_use, after] = rest.numbers();
        assert!(length as usize <= STORE && input as usize <= LONGEST);
        assert!(text_room as usize <= ROOMS.text && issue_room as usize <= ROOMS.issues);
        assert_eq!((loaded < 2, loaded == 1 || before == 0), (true, true));
        let cells = [cells::rusts(), cells::zeros(), &cells::zeros()[1..]][table as usize];
        let call = Call { cells, initial, width, input: rest.bytes(input) };
        let before = numbers(&mut rest, before);
        if loaded == 1 {
            store = before;
        }
        store.resize(length as usize, 0);
        let (mut lent, mut counts) = (Buffer::default(), [usize::MAX; 7]);
        let (mut text_buffer, mut issue_buffer) = (Buffer::default(), Buffer::default());
        let lent_store = lent.lend_copy(&store);
        let lent_text = text_buffer.lend(text_room as usize);
        let lent_issues = issue_buffer.lend(issue_room as usize);
        let (given, left) = if kind == 0 {
            (subject.set(call, place as usize, name, lent_store, &mut counts), &[0][..])
        } else {
            let lent = Lent { text: lent_text, issues: lent_issues, counts: &mut counts };
            (
                subject.go_on(call, name, lent_store, lent),
                &[0, text, issues, charge, private_use][..],
            )
        };
        let mut expected = [usize::MAX; 7];
        expected.iter_mut().zip(left).for_each(|(count, &n)| *count = n as usize);
        let text = rest.bytes(text);
        let issues = numbers(&mut rest, ISSUE as u32 * issues);
        let after = numbers(&mut rest, after);
        if kind == 0 {
            store = after;
        }
        let fault = lent.fault("number of the store", &store);
        let fault = fault.or_else(|| match kind {
            0 => None,
            _ => text_buffer
                .fault("text byte", text)
                .or_else(|| issue_buffer.fault("issue number", &issues)),
        });
        if (given, counts, &fault) != (answer, expected, &None) {
            return Err(format!("case {case}: {given}, {counts:?}, {fault:?}"));
        }
        answers[kind as usize][answer as usize] += 1;
    }
    assert!(rest.0.is_empty());
    Ok(answers)
}

fn numbers(rest: &mut Rest, count: u32) -> Vec<u32> {
    (0..count).map(|_| rest.number()).collect()
}

/// Each kind of answer.
#[test]
fn each_vector_is_answered() {
    let file = vectors::file(usize::MAX);
    assert!(file.len() < 400_000, "{}", file.len());
    let (_, subject) = subject::named(None).unwrap();
    let [sets, returns] = replay(subject, &file).unwrap();
    assert!([0, 1, 2, 3, 15, 16].into_iter().all(|number| sets[number] > 0), "{sets:?}");
    assert!([0, 1, 2, 3, 8, 9, 15].into_iter().all(|number| returns[number] > 0), "{returns:?}");
    println!("{} bytes, sets {sets:?}, returns {returns:?}", file.len());
}

/// Fewer cases are the first ones.
#[test]
fn fewer_vectors() {
    let (all, some) = (vectors::file(usize::MAX), vectors::file(7));
    assert_eq!((&some[..4], &some[4..]), (&[0, 0, 0, 7][..], &all[4..some.len()]));
}

/// The cases show each fault of which it is said.
#[test]
fn each_fault_shows() {
    let file = vectors::file(usize::MAX);
    let other: Vec<&str> = faults()
        .filter(|(_, shows, fault)| replay(fault, &file).is_err() != *shows)
        .map(|(name, ..)| *name)
        .collect();
    assert!(other.is_empty(), "{other:?}");
}
