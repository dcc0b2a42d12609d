//! The catalogues of the benchmark are what README.md says of them.

use compare::bench::{Ready, Stock, Work, tables};
use compare::call::Call;
use compare::entries::{Entries, MOST};
use compare::key::key;
use compare::model::Reading;

/// The key of the title that is added.
fn added(ready: &Ready) -> String {
    let mut reading = Reading::default();
    Call { input: &ready.inputs[0], ..ready.call }.read(&mut reading);
    assert!(reading.issues.is_empty() && reading.text.len() <= ready.rooms()[0]);
    key(reading.as_str())
}

/// How many entries and distinct keys there are, and whether the keys have 255 bytes.
fn kinds(entries: &Entries) -> (usize, usize, bool) {
    assert!(entries.keys().all(|key| (3..=255).contains(&key.len())));
    (entries.len(), entries.distinct(), entries.keys().all(|key| key.len() == 255))
}

/// What a name says of a catalogue that may hold so many entries.
fn expected(name: &str, most: usize) -> (usize, usize, bool) {
    match name.rsplit('-').next() {
        Some("empty") => (0, 0, true),
        Some("64") => (64, 64, false),
        Some("1024") => (most, most, false),
        Some("equal") => (most, 1, true),
        Some("last") => (most, most, true),
        _ => panic!("{name}"),
    }
}

#[test]
fn catalogues_hold_what_is_said() {
    let mut seen = 0;
    for case in tables().flat_map(|table| table.cases) {
        let (name, ready) = (case.name, case.ready());
        match case.work {
            Work::Find(stock) => {
                let entries = stock.entries(MOST);
                let lacking = ready.inputs.iter().filter(|key| !entries.has(key)).count();
                assert_eq!((kinds(&entries), lacking), (expected(name, MOST), 1), "{name}");
            }
            Work::AddRemove(stock) => {
                let entries = stock.entries(MOST - 1);
                let held = entries.has(added(&ready).as_bytes());
                assert_eq!(kinds(&entries), expected(name, MOST - 1), "{name}");
                assert_eq!((held, entries.key(0)), (name.ends_with("equal"), None), "{name}");
            }
            _ => continue,
        }
        seen += 1;
    }
    assert_eq!(seen, 10);
}

/// Keys that differ in the last two bytes alone.
#[test]
fn last_bytes_differ() {
    for stock in [Stock::Equal, Stock::Last] {
        let entries = stock.entries(MOST);
        assert!(entries.keys().all(|key| key[..253] == [b'A'; 253]));
    }
}
