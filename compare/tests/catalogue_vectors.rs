//! The file of the catalogue's vectors, read from its beginning to its end as a replay reads it.

mod catalogue_faulty;
mod faulty;
mod rest;

use catalogue_faulty::FAULTS;
use compare::call::Call;
use compare::catalogue::vectors::{self, KEY, LONGEST, STORE};
use compare::cells;
use compare::lent::Buffer;
use compare::subject::{self, CatalogueLent, Subject};
use rest::Rest;

/// The first case that the subject does not answer as the file says, if any, and why; else how many
/// cases of each kind there are, by refusal number.
fn replay(subject: &dyn Subject, file: &[u8]) -> Result<[[u32; 15]; 3], String> {
    let (mut rest, mut store) = (Rest(file), vec![]);
    let mut answers = [[0; 15]; 3];
    for case in 0..rest.number() {
        let [kind, table, initial, width, number, input, room, length] = rest.numbers();
        let [loaded, before, answer, first, second, after, spare] = rest.numbers();
        assert!(length as usize <= STORE && room as usize <= KEY && input as usize <= LONGEST);
        assert_eq!((spare, loaded < 2, loaded == 1 || before == 0), (0, true, true));
        let cells = [cells::rusts(), cells::zeros()][table as usize];
        let call = Call { cells, initial, width, input: rest.bytes(input) };
        let before = rest.bytes(before);
        if loaded == 1 {
            store = before.to_vec();
        }
        store.resize(length as usize, 0);
        let (mut lent, mut buffer, mut counts) =
            (Buffer::default(), Buffer::default(), [usize::MAX; 5]);
        let (lent_store, lent_key) = (lent.lend_copy(&store), buffer.lend(room as usize));
        let given = match kind {
            0 => {
                let lent = CatalogueLent { store: lent_store, key: lent_key, counts: &mut counts };
                subject.add(call, number, lent)
            }
            1 => subject.remove(lent_store, number),
            _ => subject.find(lent_store, call.input, &mut counts),
        };
        let counted = [0, first as usize, second as usize, usize::MAX, usize::MAX];
        let expected = if kind == 1 { [usize::MAX; 5] } else { counted };
        let key = rest.bytes(if kind == 0 && answer == 0 { first } else { 0 });
        store = rest.bytes(after).to_vec();
        let key_fault = if kind == 0 { buffer.fault("key byte", key) } else { None };
        let fault = key_fault.or_else(|| lent.fault("store byte", &store));
        if (given, counts, &fault) != (answer, expected, &None) {
            return Err(format!("case {case}: {given}, {counts:?}, {fault:?}"));
        }
        answers[kind as usize][answer as usize] += 1;
    }
    assert!(rest.0.is_empty());
    Ok(answers)
}

/// Each kind of answer that needs neither another table nor a long title nor a full catalogue.
#[test]
fn each_vector_is_answered() {
    let file = vectors::file(usize::MAX);
    assert!(file.len() < 100_000, "{}", file.len());
    let (_, subject) = subject::named(None).unwrap();
    let [adds, removals, finds] = replay(subject, &file).unwrap();
    assert!([0, 2, 8, 10, 11, 12, 13].into_iter().all(|number| adds[number] > 0), "{adds:?}");
    assert!([1, 3, 14].into_iter().all(|number| adds[number] == 0), "{adds:?}");
    assert!(removals[0] > 4 && removals[12] > 4, "{removals:?}");
    assert!(finds[0] > 10 && finds[12] > 5, "{finds:?}");
    let all: u32 = [adds, removals, finds].as_flattened().iter().sum();
    assert_eq!(all, 60);
}

/// Fewer cases are the first ones.
#[test]
fn fewer_vectors() {
    let (all, some) = (vectors::file(usize::MAX), vectors::file(7));
    assert_eq!((&some[..4], &some[4..]), (&[0, 0, 0, 7][..], &all[4..some.len()]));
}

/// The cases show each fault that shows without a full catalogue.
#[test]
fn each_fault_shows() {
    let file = vectors::file(usize::MAX);
    for (name, shows, fault) in &FAULTS {
        assert_eq!(replay(fault, &file).is_err(), *shows, "{name}");
    }
}
